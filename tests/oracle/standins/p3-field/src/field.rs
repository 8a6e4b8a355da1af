//! Fields: inverses, extensions, roots of unity; packed values of width one.
use core::{
    fmt::Display,
    ops::{Add, Div, Mul, Sub},
};

use serde::{de::DeserializeOwned, Serialize};

use crate::{Algebra, BasedVectorSpace};

pub trait PackedValue: 'static + Copy + Send + Sync {
    type Value: 'static + Copy + Send + Sync;
    fn pack_slice_with_suffix_mut(buf: &mut [Self::Value]) -> (&mut [Self], &mut [Self::Value]);
}

pub trait PackedField: Algebra<Self::Scalar> + PackedValue<Value = Self::Scalar> {
    type Scalar: Field;
}

/// The operators with `Packing` keep `SC::EF * SC::F` open to inference where `SC::EF` has a second
/// bound; verifier/stacked_reduction.rs needs that twice.
pub trait Field:
    Algebra<Self>
    + 'static
    + Copy
    + Div<Self, Output = Self>
    + Add<Self::Packing, Output = Self::Packing>
    + Sub<Self::Packing, Output = Self::Packing>
    + Mul<Self::Packing, Output = Self::Packing>
    + Eq
    + Send
    + Sync
    + Display
    + Serialize
    + DeserializeOwned
{
    type Packing: PackedField<Scalar = Self>;
    const GENERATOR: Self;

    fn try_inverse(&self) -> Option<Self>;

    fn inverse(&self) -> Self {
        self.try_inverse().expect("Tried to invert zero")
    }
}

pub trait PrimeField: Field {}

pub trait PrimeField64: PrimeField {
    const ORDER_U64: u64;
    fn as_canonical_u64(&self) -> u64;
}

pub trait PrimeField32: PrimeField64 {}

pub trait ExtensionField<Base: Field>: Field + Algebra<Base> + BasedVectorSpace<Base> {}

impl<F: Field> ExtensionField<F> for F {}

pub trait TwoAdicField: Field {
    fn two_adic_generator(bits: usize) -> Self;
}

/// Montgomery's trick: one inversion for the whole slice; panics if an entry is zero.
pub fn batch_multiplicative_inverse<F: Field>(x: &[F]) -> Vec<F> {
    let mut before = Vec::with_capacity(x.len());
    let mut product = F::ONE;
    for &v in x {
        before.push(product);
        product *= v;
    }
    let mut inverse = product.inverse();
    let mut out = vec![F::ZERO; x.len()];
    for i in (0..x.len()).rev() {
        out[i] = before[i] * inverse;
        inverse *= x[i];
    }
    out
}
