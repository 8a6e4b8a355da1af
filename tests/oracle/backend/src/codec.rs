//! Stand-in for codec: the traits that proof.rs implements; never run.
use std::io::{Read, Result, Write};

use crate::StarkProtocolConfig;

pub trait Encode {
    fn encode<W: Write>(&self, writer: &mut W) -> Result<()>;
}
pub trait Decode: Sized {
    fn decode<R: Read>(reader: &mut R) -> Result<Self>;
}
macro_rules! num {
    ($($t:ty),*) => {$(impl Encode for $t {
        fn encode<W: Write>(&self, w: &mut W) -> Result<()> { w.write_all(&self.to_le_bytes()) }
    })*};
}
num!(u8, u32, usize);
impl<T: Encode> Encode for Vec<T> {
    fn encode<W: Write>(&self, w: &mut W) -> Result<()> {
        self.len().encode(w)?;
        self.iter().try_for_each(|x| x.encode(w))
    }
}
/// Encodes a value, all of an iterator, and a slice with its length.
macro_rules! encoders {
    ($($kind:ident: $one:ident, $iter:ident, $slice:ident;)*) => {$(
        fn $one<W: Write>(x: &Self::$kind, w: &mut W) -> Result<()>;
        fn $iter<'a, W: Write>(
            mut i: impl Iterator<Item = &'a Self::$kind>,
            w: &mut W,
        ) -> Result<()> {
            i.try_for_each(|x| Self::$one(x, w))
        }
        fn $slice<W: Write>(s: &[Self::$kind], w: &mut W) -> Result<()> {
            s.len().encode(w)?;
            Self::$iter(s.iter(), w)
        }
    )*};
}
pub trait EncodableConfig: StarkProtocolConfig {
    encoders! {
        F: encode_base_field, encode_base_field_iter, encode_base_field_slice;
        EF: encode_extension_field, encode_extension_field_iter, encode_extension_field_slice;
        Digest: encode_digest, encode_digest_iter, encode_digest_slice;
    }
}
pub trait DecodableConfig: StarkProtocolConfig {
    fn decode_extension_field<R: Read>(r: &mut R) -> Result<Self::EF>;
}
