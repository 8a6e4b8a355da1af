use core::ops::{Add, AddAssign, Mul, MulAssign, Sub, SubAssign};

use serde::{Deserialize, Serialize};

use crate::{
    operators::operators, Algebra, BabyBear, BasedVectorSpace, ExtensionField, Field,
    PrimeCharacteristicRing, TwoAdicField,
};

const W: BabyBear = BabyBear::new(11);

/// c0 + c1 X + c2 X^2 + c3 X^3 modulo X^4 - 11.
#[derive(Copy, Clone, Default, PartialEq, Eq, Serialize, Deserialize)]
#[repr(transparent)]
pub struct Quartic(pub [BabyBear; 4]);

impl Quartic {
    pub const fn words(w: [u32; 4]) -> Self {
        Self([
            BabyBear::new(w[0]),
            BabyBear::new(w[1]),
            BabyBear::new(w[2]),
            BabyBear::new(w[3]),
        ])
    }
    #[inline(always)]
    pub(crate) fn sum(self, other: Self) -> Self {
        let (a, b) = (self.0, other.0);
        Self([a[0] + b[0], a[1] + b[1], a[2] + b[2], a[3] + b[3]])
    }
    #[inline(always)]
    pub(crate) fn difference(self, other: Self) -> Self {
        let (a, b) = (self.0, other.0);
        Self([a[0] - b[0], a[1] - b[1], a[2] - b[2], a[3] - b[3]])
    }
    #[inline(always)]
    pub(crate) fn product(self, other: Self) -> Self {
        let a = self.0;
        let [b0, b1, b2, b3] = other.0;
        let (w1, w2, w3) = (b1 * W, b2 * W, b3 * W);
        Self([
            BabyBear::dot4(a, [b0, w3, w2, w1]),
            BabyBear::dot4(a, [b1, b0, w3, w2]),
            BabyBear::dot4(a, [b2, b1, b0, w3]),
            BabyBear::dot4(a, [b3, b2, b1, b0]),
        ])
    }
}
operators!(Quartic);

impl From<BabyBear> for Quartic {
    #[inline(always)]
    fn from(x: BabyBear) -> Self {
        let z = BabyBear::ZERO;
        Self([x, z, z, z])
    }
}
impl Add<BabyBear> for Quartic {
    type Output = Self;
    #[inline(always)]
    fn add(mut self, other: BabyBear) -> Self {
        self.0[0] += other;
        self
    }
}
impl Sub<BabyBear> for Quartic {
    type Output = Self;
    #[inline(always)]
    fn sub(mut self, other: BabyBear) -> Self {
        self.0[0] -= other;
        self
    }
}
impl Mul<BabyBear> for Quartic {
    type Output = Self;
    #[inline(always)]
    fn mul(self, other: BabyBear) -> Self {
        Self(self.0.map(|c| c * other))
    }
}
impl AddAssign<BabyBear> for Quartic {
    fn add_assign(&mut self, other: BabyBear) {
        *self = *self + other
    }
}
impl SubAssign<BabyBear> for Quartic {
    fn sub_assign(&mut self, other: BabyBear) {
        *self = *self - other
    }
}
impl MulAssign<BabyBear> for Quartic {
    fn mul_assign(&mut self, other: BabyBear) {
        *self = *self * other
    }
}
impl Algebra<BabyBear> for Quartic {}
impl ExtensionField<BabyBear> for Quartic {}
impl BasedVectorSpace<BabyBear> for Quartic {
    const DIMENSION: usize = 4;
    fn as_basis_coefficients_slice(&self) -> &[BabyBear] {
        &self.0
    }
    fn from_basis_coefficients_fn<Fn: FnMut(usize) -> BabyBear>(f: Fn) -> Self {
        Self(core::array::from_fn(f))
    }
}
impl PrimeCharacteristicRing for Quartic {
    type PrimeSubfield = BabyBear;
    const ZERO: Self = Self::words([0; 4]);
    const ONE: Self = Self::words([1, 0, 0, 0]);
    const TWO: Self = Self::words([2, 0, 0, 0]);
    const NEG_ONE: Self = Self::words([2_013_265_920, 0, 0, 0]);
    fn from_prime_subfield(f: BabyBear) -> Self {
        f.into()
    }
    fn from_u64(x: u64) -> Self {
        BabyBear::from_u64(x).into()
    }
    fn halve(&self) -> Self {
        Self(self.0.map(|c| c.halve()))
    }
}
impl Field for Quartic {
    type Packing = Self;
    const GENERATOR: Self = Self::words([8, 1, 0, 0]);
    /// Through Y = X^2, Y^2 = 11: (A + X B)(A - X B) = A^2 - Y B^2 = m + n Y.
    fn try_inverse(&self) -> Option<Self> {
        if *self == Self::ZERO {
            return None;
        }
        let [a, b, c, d] = self.0;
        let m = a * a + W * (c * c) - (W * (b * d)).double();
        let n = (a * c).double() - b * b - W * (d * d);
        let k = (m * m - W * (n * n)).inverse();
        let (m, n) = (m * k, -n * k);
        let z = BabyBear::ZERO;
        Some(Self([a, -b, c, -d]) * Self([m, z, n, z]))
    }
}
impl TwoAdicField for Quartic {
    fn two_adic_generator(bits: usize) -> Self {
        assert!(bits <= 27, "bits 28 and 29 are not needed here");
        BabyBear::two_adic_generator(bits).into()
    }
}
impl core::fmt::Debug for Quartic {
    fn fmt(&self, f: &mut core::fmt::Formatter<'_>) -> core::fmt::Result {
        core::fmt::Debug::fmt(&self.0, f)
    }
}
impl core::fmt::Display for Quartic {
    fn fmt(&self, f: &mut core::fmt::Formatter<'_>) -> core::fmt::Result {
        core::fmt::Debug::fmt(&self.0, f)
    }
}
