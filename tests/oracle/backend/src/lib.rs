//! The original files by `#[path]`, unchanged, and stand-ins for the modules that were not handed
//! over. `original` is a link to the folder of the sources, made by the build script;
//! `rustfmt::skip` keeps a formatter from writing there.
#![allow(dead_code, unused_imports)]

#[path = "../original/crates/stark-backend/src/config.rs"]
#[rustfmt::skip]
pub mod config;
#[path = "../original/crates/stark-backend/src/hasher.rs"]
#[rustfmt::skip]
pub mod hasher;
#[path = "../original/crates/stark-backend/src/poly_common.rs"]
#[rustfmt::skip]
pub mod poly_common;
#[path = "../original/crates/stark-backend/src/proof.rs"]
#[rustfmt::skip]
pub mod proof;

pub mod dft;
pub mod prover;
pub mod transcript;
pub mod verifier;

// Stand-ins.
pub mod codec;
pub mod decode;
pub mod interaction;
pub mod keygen;
pub mod utils;

pub use config::*;
pub use transcript::*;
