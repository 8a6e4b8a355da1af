//! A matrix of width 0. `ColMajorMatrix::new` divides by the width, but the type can be read through
//! serde, and `stacked_matrix` takes such a matrix.
use serde::{
    de::{
        value::{Error, SeqDeserializer},
        IntoDeserializer, Visitor,
    },
    forward_to_deserialize_any, Deserialize, Deserializer,
};
use stark_backend::prover::ColMajorMatrix;

use crate::field::F;

pub fn matrix_of_width_zero(height: usize) -> ColMajorMatrix<F> {
    let parts = [Part::NoValues, Part::Number(0), Part::Number(height as u64)];
    let parts = SeqDeserializer::<_, Error>::new(parts.into_iter());
    ColMajorMatrix::deserialize(parts).expect("values, width and height are all there")
}

/// A field of the matrix: its values, of which there are none, or a number.
enum Part {
    NoValues,
    Number(u64),
}

impl<'de> IntoDeserializer<'de, Error> for Part {
    type Deserializer = Self;

    fn into_deserializer(self) -> Self {
        self
    }
}

impl<'de> Deserializer<'de> for Part {
    type Error = Error;

    fn deserialize_any<V: Visitor<'de>>(self, visitor: V) -> Result<V::Value, Error> {
        match self {
            Part::NoValues => {
                visitor.visit_seq(SeqDeserializer::<_, Error>::new(std::iter::empty::<u32>()))
            }
            Part::Number(n) => visitor.visit_u64(n),
        }
    }

    forward_to_deserialize_any! {
        bool i8 i16 i32 i64 u8 u16 u32 u64 f32 f64 char str string bytes byte_buf option unit
        unit_struct newtype_struct seq tuple tuple_struct map struct enum identifier ignored_any
    }
}
