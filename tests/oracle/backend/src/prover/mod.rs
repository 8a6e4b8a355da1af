#[path = "../../original/crates/stark-backend/src/prover/cpu_backend.rs"]
#[rustfmt::skip]
mod cpu_backend;
#[path = "../../original/crates/stark-backend/src/prover/error.rs"]
#[rustfmt::skip]
pub mod error;
#[path = "../../original/crates/stark-backend/src/prover/hal.rs"]
#[rustfmt::skip]
mod hal;
#[path = "../../original/crates/stark-backend/src/prover/matrix.rs"]
#[rustfmt::skip]
mod matrix;
#[path = "../../original/crates/stark-backend/src/prover/poly.rs"]
#[rustfmt::skip]
pub mod poly;
#[path = "../../original/crates/stark-backend/src/prover/stacked_pcs.rs"]
#[rustfmt::skip]
pub mod stacked_pcs;
#[path = "../../original/crates/stark-backend/src/prover/stacked_reduction.rs"]
#[rustfmt::skip]
pub mod stacked_reduction;
#[path = "../../original/crates/stark-backend/src/prover/sumcheck.rs"]
#[rustfmt::skip]
pub mod sumcheck;

// A second compile of stacked_reduction.rs, with a child module that reads its private buffers.
include!(concat!(env!("OUT_DIR"), "/peek_module.rs"));

// Stand-ins.
mod types;
pub mod whir;

pub use cpu_backend::*;
pub use hal::*;
pub use matrix::*;
pub use types::*;
