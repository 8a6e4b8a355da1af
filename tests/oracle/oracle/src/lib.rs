//! Answers of the original Rust and of document 01, for vectors, differential runs and benchmarks.
pub mod clock;
pub mod differ;
pub mod field;
pub mod library;
pub mod original;
#[cfg(feature = "ours")]
pub mod ours;
pub mod random;
pub mod record;
pub mod rng;
pub mod scope;
pub mod shape;
pub mod sums;
pub mod vectors;
