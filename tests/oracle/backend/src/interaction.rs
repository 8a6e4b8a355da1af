//! Stand-in for interaction: the one struct that config.rs names.
use serde::{Deserialize, Serialize};
#[derive(Clone, Debug, Default, Serialize, Deserialize, PartialEq, Eq)]
pub struct LogUpSecurityParameters {
    pub pow_bits: usize,
}
