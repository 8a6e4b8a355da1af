//! The protocol configuration that the originals are generic over: our two field types and the sizes.
use stark_backend::{
    hasher::MerkleHasher, interaction::LogUpSecurityParameters, StarkProtocolConfig, SystemParams,
    WhirConfig, WhirProximityStrategy,
};

use crate::field::{EF, F};

pub type Digest = [F; 8];

/// The reduction hashes nothing.
#[derive(Clone)]
pub struct NoHash;

impl MerkleHasher for NoHash {
    type F = F;
    type Digest = Digest;

    fn hash_slice(&self, _: &[F]) -> Digest {
        unreachable!("the reduction hashes nothing")
    }

    fn compress(&self, _: Digest, _: Digest) -> Digest {
        unreachable!("the reduction hashes nothing")
    }
}

#[derive(Clone)]
pub struct Config {
    params: SystemParams,
}

impl Config {
    pub fn new(l_skip: usize, n_stack: usize) -> Self {
        let whir = WhirConfig {
            k: 1,
            rounds: vec![],
            mu_pow_bits: 0,
            query_phase_pow_bits: 0,
            folding_pow_bits: 0,
            proximity: WhirProximityStrategy::UniqueDecoding,
        };
        let params = SystemParams {
            l_skip,
            n_stack,
            w_stack: usize::MAX,
            log_blowup: 1,
            whir,
            logup: LogUpSecurityParameters::default(),
            max_constraint_degree: 0,
        };
        Self { params }
    }
}

impl StarkProtocolConfig for Config {
    type F = F;
    type EF = EF;
    type Digest = Digest;
    type Hasher = NoHash;

    fn params(&self) -> &SystemParams {
        &self.params
    }

    fn hasher(&self) -> &NoHash {
        &NoHash
    }
}
