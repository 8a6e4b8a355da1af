use legrudda::{Element, Run};
use stark_backend::{
    poly_common::UnivariatePoly,
    prover::{
        stacked_pcs::{StackedLayout, StackedPcsData},
        stacked_reduction::StackedReductionProver,
        CpuColMajorBackend, ReferenceDevice,
    },
};

type Backend = CpuColMajorBackend<Config>;
type Device = ReferenceDevice<Config>;
type PcsData = StackedPcsData<F, Digest>;

/// A run, and the stacked matrices that two of its calls are lent.
pub struct RunProver {
    run: Run,
    matrices: Vec<u32>,
}

impl<'a> StackedReductionProver<'a, Backend, Device> for RunProver {
    fn new(
        device: &'a Device,
        stacked_per_commit: Vec<&'a PcsData>,
        need_rot_per_commit: Vec<Vec<bool>>,
        r: &[EF],
        lambda: EF,
    ) -> Self {
        let params = device.params();
        let (l_skip, n_stack) = (params.l_skip as u32, params.n_stack as u32);
        let (mut counts, mut lists, mut matrices) = (vec![], vec![], vec![]);
        for (data, flags) in stacked_per_commit.iter().zip(&need_rot_per_commit) {
            counts.push(flags.len() as u32);
            lists.extend(list(&data.layout, flags));
            matrices.extend(data.matrix.values.iter().map(|value| word(*value)));
        }
        let point: Vec<u32> = r.iter().flat_map(|x| words(*x)).collect();
        let weight = words(lambda).into();
        let mut run = Run::new(l_skip, n_stack, &counts, &lists, &point, weight);
        run.start().expect("lists within the limits");
        Self { run, matrices }
    }

    fn batch_sumcheck_uni_round0_poly(&mut self) -> UnivariatePoly<EF> {
        let first = self.run.first_polynomial(&self.matrices);
        let first = first.expect("a call in turn");
        let coefficients = first.chunks_exact(4).map(|c| element([c[0], c[1], c[2], c[3]]));
        UnivariatePoly::new(coefficients.collect())
    }

    fn fold_ple_evals(&mut self, u_0: EF) {
        let folded = self.run.fold_ple_evals(&self.matrices, words(u_0).into());
        folded.expect("a call in turn");
    }

    fn batch_sumcheck_poly_eval(&mut self, round: usize, _u_prev: EF) -> [EF; 2] {
        let pair = self.run.round_pair(round as u32).expect("a call in turn");
        [pair.at_1, pair.at_2].map(|value| element(value.words))
    }

    fn fold_mle_evals(&mut self, round: usize, u_round: EF) {
        let folded = self.run.fold_mle_evals(round as u32, words(u_round).into());
        folded.expect("a call in turn");
    }

    fn into_stacked_openings(mut self) -> Vec<Vec<EF>> {
        let openings = self.run.openings_by_commitment().expect("a call in turn");
        let elements = |of_one: &Vec<Element>| of_one.iter().map(|e| element(e.words)).collect();
        openings.iter().map(elements).collect()
    }
}

/// A commitment's list, read back from its layout. A matrix of width 0 has left no height there, and none is looked at.
fn list(layout: &StackedLayout, flags: &[bool]) -> Vec<u32> {
    let starts = layout.mat_starts.iter().copied();
    let ends = starts.clone().skip(1).chain([layout.sorted_cols.len()]);
    let columns = starts.zip(ends).zip(flags);
    columns
        .flat_map(|((start, end), flag)| {
            let first = layout.sorted_cols[..end].get(start);
            let log_height = first.map_or(0, |(_, _, slice)| slice.log_height());
            [(end - start) as u32, log_height as u32, u32::from(*flag)]
        })
        .collect()
}
