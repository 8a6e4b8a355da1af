/// Appended to a copy of prover/stacked_reduction.rs by build.rs: the prover's work buffers.
pub mod peek {
    use super::*;

    /// Stack columns of each commitment, tables ascending by log height, weights column by column.
    pub struct Buffers<'p, EF> {
        pub q_evals: Vec<&'p [EF]>,
        pub eq_r: Vec<(usize, &'p [EF])>,
        pub k_rot_r: Vec<(usize, &'p [EF])>,
        pub eq_ub: &'p [EF],
    }

    pub fn buffers<'p, SC: StarkProtocolConfig>(
        prover: &'p StackedReductionCpu<'_, SC>,
    ) -> Buffers<'p, SC::EF> {
        Buffers {
            q_evals: prover.q_evals.iter().map(|m| m.values.as_slice()).collect(),
            eq_r: ascending(&prover.eq_r_per_lht),
            k_rot_r: ascending(&prover.k_rot_r_per_lht),
            eq_ub: &prover.eq_ub_per_trace,
        }
    }

    fn ascending<EF>(tables: &HashMap<usize, ColMajorMatrix<EF>>) -> Vec<(usize, &[EF])> {
        let mut tables: Vec<_> = tables
            .iter()
            .map(|(log_height, table)| (*log_height, table.values.as_slice()))
            .collect();
        tables.sort_by_key(|table| table.0);
        tables
    }
}
