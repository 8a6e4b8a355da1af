//! Stands in for the original's crate: what the shown prover names of it, with the same signatures and little else.

pub mod poly_common {
    pub struct UnivariatePoly<F>(pub Vec<F>);

    impl<F> UnivariatePoly<F> {
        pub fn new(coeffs: Vec<F>) -> Self {
            Self(coeffs)
        }
    }
}

pub mod prover {
    use std::marker::PhantomData;

    pub trait ProverBackend {
        type Challenge;
        type PcsData;
    }

    pub struct CpuColMajorBackend<SC>(PhantomData<SC>);

    pub struct SystemParams {
        pub l_skip: usize,
        pub n_stack: usize,
    }

    pub struct ReferenceDevice<SC> {
        pub params: SystemParams,
        pub config: PhantomData<SC>,
    }

    impl<SC> ReferenceDevice<SC> {
        pub fn params(&self) -> &SystemParams {
            &self.params
        }
    }

    pub struct ColMajorMatrix<F> {
        pub values: Vec<F>,
    }

    pub mod stacked_pcs {
        use std::marker::PhantomData;

        use super::ColMajorMatrix;

        pub struct StackedSlice(pub usize);

        impl StackedSlice {
            pub fn log_height(&self) -> usize {
                self.0
            }
        }

        #[derive(Default)]
        pub struct StackedLayout {
            pub sorted_cols: Vec<(usize, usize, StackedSlice)>,
            pub mat_starts: Vec<usize>,
        }

        pub struct StackedPcsData<F, Digest> {
            pub layout: StackedLayout,
            pub matrix: ColMajorMatrix<F>,
            pub tree: PhantomData<Digest>,
        }
    }

    pub mod stacked_reduction {
        use super::ProverBackend;
        use crate::stark_backend::poly_common::UnivariatePoly;

        pub trait StackedReductionProver<'a, PB: ProverBackend, PD> {
            fn new(
                device: &'a PD,
                stacked_per_commit: Vec<&'a PB::PcsData>,
                need_rot_per_commit: Vec<Vec<bool>>,
                r: &[PB::Challenge],
                lambda: PB::Challenge,
            ) -> Self;
            fn batch_sumcheck_uni_round0_poly(&mut self) -> UnivariatePoly<PB::Challenge>;
            fn fold_ple_evals(&mut self, u_0: PB::Challenge);
            fn batch_sumcheck_poly_eval(
                &mut self,
                round: usize,
                u_prev: PB::Challenge,
            ) -> [PB::Challenge; 2];
            fn fold_mle_evals(&mut self, round: usize, u_round: PB::Challenge);
            fn into_stacked_openings(self) -> Vec<Vec<PB::Challenge>>;
        }
    }
}
