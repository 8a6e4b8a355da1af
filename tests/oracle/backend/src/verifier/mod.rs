#[path = "../../original/crates/stark-backend/src/verifier/stacked_reduction.rs"]
#[rustfmt::skip]
pub mod stacked_reduction;
