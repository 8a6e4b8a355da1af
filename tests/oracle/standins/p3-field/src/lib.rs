//! Stand-in for p3-field: the traits that the original files name, with p3's names and shapes, and
//! two types, BabyBear (p = 2,013,265,921) and its quartic extension modulo X^4 - 11.
mod baby_bear;
mod field;
mod montgomery;
mod operators;
mod quartic;
mod ring;

pub use baby_bear::BabyBear;
pub use field::{
    batch_multiplicative_inverse, ExtensionField, Field, PackedField, PackedValue, PrimeField,
    PrimeField32, PrimeField64, TwoAdicField,
};
pub use quartic::Quartic;
pub use ring::{Algebra, BasedVectorSpace, Powers, PrimeCharacteristicRing};
