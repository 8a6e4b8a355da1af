//! Rings: what p3 calls PrimeCharacteristicRing, Algebra and BasedVectorSpace.
use core::{
    fmt::Debug,
    iter::Sum,
    ops::{Add, AddAssign, Mul, MulAssign, Neg, Sub, SubAssign},
};

use crate::PrimeField;

pub trait PrimeCharacteristicRing:
    Sized
    + Default
    + Clone
    + Add<Output = Self>
    + AddAssign
    + Sub<Output = Self>
    + SubAssign
    + Neg<Output = Self>
    + Mul<Output = Self>
    + MulAssign
    + Sum
    + Debug
{
    type PrimeSubfield: PrimeField;
    const ZERO: Self;
    const ONE: Self;
    const TWO: Self;
    const NEG_ONE: Self;

    fn from_prime_subfield(f: Self::PrimeSubfield) -> Self;
    fn from_u64(x: u64) -> Self;
    fn halve(&self) -> Self;

    #[inline]
    fn from_bool(b: bool) -> Self {
        if b {
            Self::ONE
        } else {
            Self::ZERO
        }
    }

    #[inline]
    fn from_usize(x: usize) -> Self {
        Self::from_u64(x as u64)
    }

    #[inline]
    fn double(&self) -> Self {
        self.clone() + self.clone()
    }

    #[inline]
    fn square(&self) -> Self {
        self.clone() * self.clone()
    }

    fn exp_u64(&self, mut n: u64) -> Self {
        let mut base = self.clone();
        let mut out = Self::ONE;
        while n > 0 {
            if n & 1 == 1 {
                out *= base.clone();
            }
            base = base.square();
            n >>= 1;
        }
        out
    }

    fn exp_power_of_2(&self, k: usize) -> Self {
        let mut out = self.clone();
        for _ in 0..k {
            out = out.square();
        }
        out
    }

    fn div_2exp_u64(&self, k: u64) -> Self {
        self.clone() * Self::ONE.halve().exp_u64(k)
    }

    fn powers(&self) -> Powers<Self> {
        Powers {
            base: self.clone(),
            current: Self::ONE,
        }
    }

    fn zero_vec(len: usize) -> Vec<Self> {
        vec![Self::ZERO; len]
    }
}

/// 1, base, base^2, ..
#[derive(Clone, Debug)]
pub struct Powers<R> {
    pub base: R,
    pub current: R,
}

impl<R: PrimeCharacteristicRing> Iterator for Powers<R> {
    type Item = R;

    #[inline]
    fn next(&mut self) -> Option<R> {
        let r = self.current.clone();
        self.current *= self.base.clone();
        Some(r)
    }
}

pub trait Algebra<F>:
    PrimeCharacteristicRing
    + From<F>
    + Add<F, Output = Self>
    + AddAssign<F>
    + Sub<F, Output = Self>
    + SubAssign<F>
    + Mul<F, Output = Self>
    + MulAssign<F>
{
}

impl<R: PrimeCharacteristicRing> Algebra<R> for R {}

pub trait BasedVectorSpace<F: PrimeCharacteristicRing>: Sized {
    const DIMENSION: usize;
    fn as_basis_coefficients_slice(&self) -> &[F];
    fn from_basis_coefficients_fn<Fn: FnMut(usize) -> F>(f: Fn) -> Self;
}

impl<F: PrimeCharacteristicRing> BasedVectorSpace<F> for F {
    const DIMENSION: usize = 1;

    fn as_basis_coefficients_slice(&self) -> &[F] {
        core::slice::from_ref(self)
    }

    fn from_basis_coefficients_fn<Fn: FnMut(usize) -> F>(mut f: Fn) -> Self {
        f(0)
    }
}
