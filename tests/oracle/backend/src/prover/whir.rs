//! Stand-in for prover/whir.rs: the one method that cpu_backend.rs calls; never run.
use std::sync::Arc;

use crate::{
    proof::WhirProof,
    prover::{error::WhirProverError, stacked_pcs::StackedPcsData, ReferenceDevice},
    StarkProtocolConfig,
};

pub trait WhirProver<SC: StarkProtocolConfig, TS> {
    fn prove_whir(
        &self,
        _transcript: &mut TS,
        _common: StackedPcsData<SC::F, SC::Digest>,
        _rest: Vec<Arc<StackedPcsData<SC::F, SC::Digest>>>,
        _u: &[SC::EF],
    ) -> Result<WhirProof<SC>, WhirProverError> {
        unimplemented!("not part of the oracle")
    }
}
impl<SC: StarkProtocolConfig, TS> WhirProver<SC, TS> for ReferenceDevice<SC> {}
