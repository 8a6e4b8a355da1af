//! splitmix64: small and fixed, so that every case can be made again from its seed.
use crate::field::{element, EF, P};

pub struct Rng(u64);

/// Words at which an arithmetic slip would show, canonical or not.
const EDGES: [u32; 12] = [
    0,
    1,
    2,
    11,
    (P - 1) / 2,
    P.div_ceil(2),
    P - 2,
    P - 1,
    P,
    P + 1,
    u32::MAX - 1,
    u32::MAX,
];

impl Rng {
    pub fn new(seed: u64) -> Self {
        Self(seed)
    }

    /// The generator of one case of a group: independent of how many cases came before.
    pub fn of_case(seed: u64, case: u64) -> Self {
        let mut rng = Self(seed);
        let start = rng.next() ^ case.wrapping_mul(0xD6E8_FEB8_6659_FD93);
        Self(start)
    }

    #[allow(clippy::should_implement_trait)]
    pub fn next(&mut self) -> u64 {
        self.0 = self.0.wrapping_add(0x9E37_79B9_7F4A_7C15);
        let mut z = self.0;
        z = (z ^ (z >> 30)).wrapping_mul(0xBF58_476D_1CE4_E5B9);
        z = (z ^ (z >> 27)).wrapping_mul(0x94D0_49BB_1331_11EB);
        z ^ (z >> 31)
    }

    pub fn below(&mut self, n: u32) -> u32 {
        (self.next() % n as u64) as u32
    }

    /// From a to b, both included.
    pub fn between(&mut self, a: u32, b: u32) -> u32 {
        a + self.below(b - a + 1)
    }

    /// True once in n.
    pub fn once_in(&mut self, n: u32) -> bool {
        self.below(n) == 0
    }

    pub fn pick<T: Copy>(&mut self, items: &[T]) -> T {
        items[self.below(items.len() as u32) as usize]
    }

    pub fn shuffle<T>(&mut self, items: &mut [T]) {
        for last in (1..items.len()).rev() {
            items.swap(last, self.below(last as u32 + 1) as usize);
        }
    }

    /// A word below p.
    pub fn word(&mut self) -> u32 {
        self.below(P)
    }

    pub fn words(&mut self, count: usize) -> Vec<u32> {
        (0..count).map(|_| self.word()).collect()
    }

    /// Any u32, often an edge.
    pub fn edge_word(&mut self) -> u32 {
        match self.below(4) {
            0 => self.pick(&EDGES),
            1 => self.next() as u32,
            _ => self.word(),
        }
    }

    pub fn edge_words(&mut self, count: usize) -> Vec<u32> {
        (0..count).map(|_| self.edge_word()).collect()
    }

    pub fn edge_element(&mut self) -> [u32; 4] {
        std::array::from_fn(|_| self.edge_word())
    }

    pub fn element(&mut self) -> EF {
        element(std::array::from_fn(|_| self.word()))
    }

    pub fn elements(&mut self, count: usize) -> Vec<EF> {
        (0..count).map(|_| self.element()).collect()
    }
}
