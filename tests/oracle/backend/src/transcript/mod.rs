#[path = "../../original/crates/stark-backend/src/transcript/traits.rs"]
#[rustfmt::skip]
mod traits;
pub use traits::*;
