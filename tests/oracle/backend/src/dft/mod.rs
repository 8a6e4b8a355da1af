#[path = "../../original/crates/stark-backend/src/dft/radix_2_bowers_serial.rs"]
#[rustfmt::skip]
mod radix_2_bowers_serial;
pub use radix_2_bowers_serial::*;
