//! Stand-in for keygen: the fields that hal.rs and cpu_backend.rs name; never run.
pub mod types {
    use std::sync::Arc;

    use crate::{prover::stacked_pcs::StackedPcsData, StarkProtocolConfig, SystemParams};

    #[derive(Clone)]
    pub struct StarkVerifyingParams {
        pub need_rot: bool,
    }
    #[derive(Clone)]
    pub struct StarkVerifyingKey {
        pub params: StarkVerifyingParams,
    }
    pub struct StarkProvingKey<SC: StarkProtocolConfig> {
        pub air_name: String,
        pub vk: StarkVerifyingKey,
        pub preprocessed_data: Option<Arc<StackedPcsData<SC::F, SC::Digest>>>,
    }
    pub struct MultiStarkProvingKey<SC: StarkProtocolConfig> {
        pub per_air: Vec<StarkProvingKey<SC>>,
        pub trace_height_constraints: Vec<()>,
        pub max_constraint_degree: usize,
        pub params: SystemParams,
        pub vk_pre_hash: SC::Digest,
    }
}
