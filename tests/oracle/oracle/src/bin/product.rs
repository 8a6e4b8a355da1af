//! Times one element product: the library's (with the feature `ours`) beside the same formula in plain
//! Rust, 11 b_1, 11 b_2 and 11 b_3 reduced, then four sums of four products, each reduced once; seven
//! reductions in all.
use std::hint::black_box;

use oracle::{
    clock::timed,
    field::{self, element, words},
    rng::Rng,
};
#[cfg(feature = "ours")]
use oracle::{library::Library, ours::Ours};

const P: u64 = field::P as u64;
const PRODUCTS: u32 = 20_000_000;

#[inline(always)]
fn product(a: [u32; 4], b: [u32; 4]) -> [u32; 4] {
    let [a0, a1, a2, a3] = a.map(u64::from);
    let [b0, b1, b2, b3] = b.map(u64::from);
    let (w1, w2, w3) = (11 * b1 % P, 11 * b2 % P, 11 * b3 % P);
    [
        a0 * b0 + a1 * w3 + a2 * w2 + a3 * w1,
        a0 * b1 + a1 * b0 + a2 * w3 + a3 * w2,
        a0 * b2 + a1 * b1 + a2 * b0 + a3 * w3,
        a0 * b3 + a1 * b2 + a2 * b1 + a3 * b0,
    ]
    .map(|sum| (sum % P) as u32)
}

fn main() {
    let mut rng = Rng::new(11);
    let operands: Vec<[u32; 4]> = (0..1_024).map(|_| words(rng.element())).collect();
    for pair in operands.windows(2) {
        let wanted = words(element(pair[0]) * element(pair[1]));
        assert_eq!(product(pair[0], pair[1]), wanted);
    }
    let (_, many) = timed(|| black_box(throughput(&operands)));
    println!(
        "plain Rust, independent products: {:.2} ns each",
        nanoseconds(many)
    );
    let (squared, chain) = timed(|| squarings(black_box(operands[0])));
    println!(
        "plain Rust, a chain of squarings: {:.2} ns each",
        nanoseconds(chain)
    );
    #[cfg(feature = "ours")]
    {
        let (ours, chain) = timed(|| Ours.exp_power_of_2(black_box(operands[0]), PRODUCTS));
        assert_eq!(ours, squared);
        println!(
            "the library, the same chain: {:.2} ns each",
            nanoseconds(chain)
        );
    }
    black_box(squared);
}

fn nanoseconds(seconds: f64) -> f64 {
    seconds * 1e9 / f64::from(PRODUCTS)
}

/// Each product takes the one before.
fn squarings(start: [u32; 4]) -> [u32; 4] {
    (0..PRODUCTS).fold(start, |value, _| product(value, value))
}

/// Products of neighbours, written to a buffer.
fn throughput(operands: &[[u32; 4]]) -> Vec<[u32; 4]> {
    let mut out = vec![[0; 4]; operands.len()];
    for _ in 0..PRODUCTS as usize / operands.len() {
        let operands = black_box(operands);
        for (i, out) in out.iter_mut().enumerate() {
            *out = product(operands[i], operands[(i + 1) % operands.len()]);
        }
        black_box(&mut out);
    }
    out
}
