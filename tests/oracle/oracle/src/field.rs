//! Words and elements as document 01 writes them, to and from the field that the originals run on.
pub use p3_field::{BabyBear as F, Field, PrimeCharacteristicRing, Quartic as EF, TwoAdicField};

/// p = 15 * 2^27 + 1.
pub const P: u32 = 2_013_265_921;

/// The residue of any u32.
pub fn residue(x: u32) -> F {
    F::new(x)
}

pub fn residues(words: &[u32]) -> Vec<F> {
    words.iter().map(|x| residue(*x)).collect()
}

pub fn canonical(values: &[F]) -> Vec<u32> {
    values.iter().map(|x| x.word()).collect()
}

/// The element of four words, constant coefficient first, each modulo p.
pub fn element(words: [u32; 4]) -> EF {
    EF::words(words)
}

/// The element of one word.
pub fn constant(x: u32) -> EF {
    residue(x).into()
}

pub fn words(x: EF) -> [u32; 4] {
    x.0.map(|c| c.word())
}

/// Elements standing one after the other in a slice of words.
pub fn elements(slice: &[u32]) -> Vec<EF> {
    slice
        .chunks_exact(4)
        .map(|c| element(c.try_into().unwrap()))
        .collect()
}

pub fn flat(elements: &[EF]) -> Vec<u32> {
    elements.iter().flat_map(|x| words(*x)).collect()
}

#[cfg(test)]
mod tests {
    use super::*;
    use crate::rng::Rng;

    /// Sums, differences and products of words and elements against u128 arithmetic.
    #[test]
    fn stand_in_field_is_integers_modulo_p() {
        let mut rng = Rng::new(3);
        let p = P as u128;
        for _ in 0..200_000 {
            let (a, b) = (rng.edge_word() % P, rng.edge_word() % P);
            let (x, y) = (residue(a), residue(b));
            let (a, b) = (a as u128, b as u128);
            assert_eq!((x + y).word() as u128, (a + b) % p);
            assert_eq!((x - y).word() as u128, (a + p - b) % p);
            assert_eq!((x * y).word() as u128, a * b % p);
            assert_eq!(x.halve() + x.halve(), x);
        }
    }

    #[test]
    fn stand_in_extension_is_modulo_x4_minus_11() {
        let mut rng = Rng::new(4);
        for _ in 0..50_000 {
            let a: [u32; 4] = std::array::from_fn(|_| rng.edge_word() % P);
            let b: [u32; 4] = std::array::from_fn(|_| rng.edge_word() % P);
            let mut c = [0u128; 7];
            for i in 0..4 {
                for j in 0..4 {
                    c[i + j] += a[i] as u128 * b[j] as u128;
                }
            }
            let wanted: [u32; 4] = std::array::from_fn(|k| {
                let folded = if k < 3 { 11 * c[k + 4] } else { 0 };
                ((c[k] + folded) % P as u128) as u32
            });
            let (x, y) = (element(a), element(b));
            assert_eq!(words(x * y), wanted);
            assert!(x == EF::ZERO || x * x.inverse() == EF::ONE);
        }
    }

    #[test]
    fn generators_are_powers_of_31_to_the_15() {
        assert_eq!(residue(31).exp_u64(15).word(), 440_564_289);
        for k in 0..=27 {
            let g = F::two_adic_generator(k);
            assert_eq!(g, residue(440_564_289).exp_power_of_2(27 - k));
            assert_eq!(g.exp_power_of_2(k), F::ONE);
            assert!(k == 0 || g.exp_power_of_2(k - 1) == F::NEG_ONE);
        }
    }
}
