//! Stand-in for prover/types.rs and the zerocheck entry: what hal.rs and cpu_backend.rs name; never
//! run.
use std::sync::Arc;

use crate::{
    keygen::types::StarkVerifyingKey,
    proof::{BatchConstraintProof, GkrProof},
    prover::{error::RefProverError, CpuColMajorBackend, ProverBackend},
    StarkProtocolConfig, SystemParams,
};

pub struct CommittedTraceData<PB: ProverBackend> {
    pub commitment: PB::Commitment,
    pub trace: PB::Matrix,
    pub data: Arc<PB::PcsData>,
}
pub struct DeviceStarkProvingKey<PB: ProverBackend> {
    pub air_name: String,
    pub vk: StarkVerifyingKey,
    pub preprocessed_data: Option<CommittedTraceData<PB>>,
    pub other_data: PB::OtherAirData,
}
#[derive(derive_new::new)]
pub struct DeviceMultiStarkProvingKey<PB: ProverBackend> {
    pub per_air: Vec<DeviceStarkProvingKey<PB>>,
    pub trace_height_constraints: Vec<()>,
    pub max_constraint_degree: usize,
    pub params: SystemParams,
    pub vk_pre_hash: PB::Commitment,
}
#[derive(derive_new::new)]
pub struct AirProvingContext<PB: ProverBackend> {
    pub cached_mains: Vec<CommittedTraceData<PB>>,
    pub common_main: PB::Matrix,
    pub public_values: Vec<PB::Val>,
}
#[derive(derive_new::new)]
pub struct ProvingContext<PB: ProverBackend> {
    pub per_trace: Vec<(usize, AirProvingContext<PB>)>,
}

#[allow(clippy::type_complexity)]
pub fn prove_zerocheck_and_logup<SC: StarkProtocolConfig, TS>(
    _transcript: &mut TS,
    _mpk: &DeviceMultiStarkProvingKey<CpuColMajorBackend<SC>>,
    _ctx: &ProvingContext<CpuColMajorBackend<SC>>,
) -> Result<(GkrProof<SC>, BatchConstraintProof<SC>, Vec<SC::EF>), RefProverError> {
    unimplemented!("not part of the oracle")
}
