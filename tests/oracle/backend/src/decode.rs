//! Stand-in for decode: the functions that proof.rs calls; never run.
use std::io::{Read, Result};

use crate::{codec::DecodableConfig, proof::*, StarkProtocolConfig};

pub struct Limits;
pub struct Preamble<SC: StarkProtocolConfig> {
    pub common_main_commit: SC::Digest,
    pub trace_vdata: Vec<Option<TraceVData<SC>>>,
    pub public_values: Vec<Vec<SC::F>>,
}
macro_rules! stub {
    ($($f:ident -> $t:ident),*) => {$(
        pub fn $f<SC: DecodableConfig, R: Read>(_: &mut R, _: Option<&Limits>) -> Result<$t<SC>> {
            unimplemented!("not part of the oracle")
        }
    )*};
}
stub!(decode_preamble -> Preamble, decode_trace_vdata -> TraceVData, decode_gkr_proof -> GkrProof,
    decode_batch_constraint_proof -> BatchConstraintProof, decode_stacking_proof -> StackingProof,
    decode_whir_proof -> WhirProof);
