use serde::{Deserialize, Deserializer, Serialize, Serializer};

use crate::{
    montgomery::{enter, leave, reduce, reduce_four_products, P},
    operators::operators,
    Field, PrimeCharacteristicRing, PrimeField, PrimeField64, TwoAdicField,
};

/// One word, held as value * 2^32 mod p.
#[derive(Copy, Clone, Default, PartialEq, Eq)]
#[repr(transparent)]
pub struct BabyBear(u32);

impl BabyBear {
    #[inline]
    pub const fn new(x: u32) -> Self {
        Self(enter(x % P))
    }
    #[inline]
    pub const fn word(self) -> u32 {
        leave(self.0)
    }
    #[inline(always)]
    pub(crate) fn sum(self, other: Self) -> Self {
        let s = self.0 + other.0;
        Self(if s >= P { s - P } else { s })
    }
    #[inline(always)]
    pub(crate) fn difference(self, other: Self) -> Self {
        let (d, under) = self.0.overflowing_sub(other.0);
        Self(if under { d.wrapping_add(P) } else { d })
    }
    #[inline(always)]
    pub(crate) fn product(self, other: Self) -> Self {
        Self(reduce(self.0 as u64 * other.0 as u64))
    }
    /// The sum of four products with one reduction; 4 (p - 1)^2 < 2^64.
    #[inline(always)]
    pub(crate) fn dot4(a: [Self; 4], b: [Self; 4]) -> Self {
        let m = |i: usize| a[i].0 as u64 * b[i].0 as u64;
        Self(reduce_four_products(m(0) + m(1) + m(2) + m(3)))
    }
}
operators!(BabyBear);

impl PrimeCharacteristicRing for BabyBear {
    type PrimeSubfield = Self;
    const ZERO: Self = Self::new(0);
    const ONE: Self = Self::new(1);
    const TWO: Self = Self::new(2);
    const NEG_ONE: Self = Self::new(P - 1);
    fn from_prime_subfield(f: Self) -> Self {
        f
    }
    #[inline]
    fn from_u64(x: u64) -> Self {
        Self::new((x % P as u64) as u32)
    }
    #[inline]
    fn halve(&self) -> Self {
        // An odd x has (x + p) / 2 for its half, in Montgomery form too.
        let x = self.0;
        Self(if x & 1 == 0 {
            x >> 1
        } else {
            (x >> 1) + P.div_ceil(2)
        })
    }
}
impl Field for BabyBear {
    type Packing = Self;
    const GENERATOR: Self = Self::new(31);
    fn try_inverse(&self) -> Option<Self> {
        (self.0 != 0).then(|| self.exp_u64(P as u64 - 2))
    }
}
impl PrimeField for BabyBear {}
impl PrimeField64 for BabyBear {
    const ORDER_U64: u64 = P as u64;
    fn as_canonical_u64(&self) -> u64 {
        self.word() as u64
    }
}
impl TwoAdicField for BabyBear {
    fn two_adic_generator(bits: usize) -> Self {
        assert!(bits <= 27);
        Self::new(440_564_289).exp_power_of_2(27 - bits)
    }
}
impl core::fmt::Debug for BabyBear {
    fn fmt(&self, f: &mut core::fmt::Formatter<'_>) -> core::fmt::Result {
        core::fmt::Display::fmt(&self.word(), f)
    }
}
impl core::fmt::Display for BabyBear {
    fn fmt(&self, f: &mut core::fmt::Formatter<'_>) -> core::fmt::Result {
        core::fmt::Display::fmt(&self.word(), f)
    }
}
impl Serialize for BabyBear {
    fn serialize<S: Serializer>(&self, s: S) -> Result<S::Ok, S::Error> {
        s.serialize_u32(self.word())
    }
}
impl<'de> Deserialize<'de> for BabyBear {
    fn deserialize<D: Deserializer<'de>>(d: D) -> Result<Self, D::Error> {
        Ok(Self::new(u32::deserialize(d)?))
    }
}
