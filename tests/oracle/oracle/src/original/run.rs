//! prover/stacked_reduction.rs: a whole run, and the same run call by call with its work buffers.
use stark_backend::{
    proof::StackingProof,
    prover::{
        stacked_pcs::{MerkleTree, StackedLayout, StackedPcsData},
        stacked_reduction::{
            self, prove_stacked_opening_reduction, StackedReductionCpu, StackedReductionProver,
        },
        stacked_reduction_and_peek::{
            self,
            peek::{self, Buffers},
        },
        ColMajorMatrix, CpuColMajorBackend, ReferenceDevice,
    },
};

use super::{
    claims::claims,
    config::{Config, Digest},
    empty_matrix::matrix_of_width_zero,
    layout, layouts, Given,
};
use crate::{
    field::{canonical, flat, residues, PrimeCharacteristicRing, EF, F},
    shape::Shape,
};

pub(super) type Device = ReferenceDevice<Config>;
pub(super) type Backend = CpuColMajorBackend<Config>;
pub(super) type PcsData = StackedPcsData<F, Digest>;
pub type Proof = StackingProof<Config>;

/// A shape with its stacked matrices, as the originals hold them.
pub struct Committed {
    pub shape: Shape,
    pub(super) device: Device,
    data: Vec<PcsData>,
}

impl Committed {
    /// From the stacked matrices' words, commitment after commitment.
    pub fn new(shape: &Shape, matrices: &[u32]) -> Self {
        let mut left = residues(matrices);
        let mut data = vec![];
        for layout in layouts(shape) {
            let rest = left.split_off(layout.width() * shape.height());
            let matrix = ColMajorMatrix::new(left, layout.width());
            data.push(StackedPcsData::new(layout, matrix, no_tree()));
            left = rest;
        }
        Self {
            shape: shape.clone(),
            device: device(shape),
            data,
        }
    }

    /// One commitment of no column; its stacked matrix cannot come from the original's stacking.
    pub fn without_columns(l_skip: u32, n_stack: u32) -> Self {
        let shape = Shape::new(l_skip, n_stack, vec![vec![]]);
        let layout = layout(l_skip, n_stack, &[]).expect("an empty list");
        let matrix = matrix_of_width_zero(shape.height());
        Self {
            device: device(&shape),
            data: vec![StackedPcsData::new(layout, matrix, no_tree())],
            shape,
        }
    }

    pub fn layouts(&self) -> Vec<StackedLayout> {
        self.data.iter().map(|d| d.layout.clone()).collect()
    }

    /// The stacked matrices' words.
    pub fn matrices(&self) -> Vec<u32> {
        self.data
            .iter()
            .flat_map(|d| canonical(&d.matrix.values))
            .collect()
    }

    /// The true openings at r.
    pub fn claims(&self, r: &[EF]) -> Vec<EF> {
        let stacked: Vec<_> = self.data.iter().map(|d| (&d.layout, &d.matrix)).collect();
        claims(&self.shape, &stacked, r)
    }

    pub fn width(&self) -> usize {
        self.data.iter().map(|d| d.layout.width()).sum()
    }
}

fn device(shape: &Shape) -> Device {
    Device::new(Config::new(shape.l_skip as usize, shape.n_stack as usize))
}

/// The reduction never looks at the Merkle tree.
fn no_tree() -> MerkleTree<F, Digest> {
    let matrix = ColMajorMatrix::new(vec![F::ZERO], 1);
    unsafe { MerkleTree::from_raw_parts(matrix, vec![], 1) }
}

/// `prove_stacked_opening_reduction`; challenges are lambda, then u_0 to u_n_stack.
pub fn prove(committed: &Committed, r: &[EF], challenges: &[EF]) -> (Proof, Given) {
    let device = &committed.device;
    prove_over::<Device, StackedReductionCpu<Config>>(device, committed, r, challenges)
}

/// The same over any prover with the original's trait.
pub(super) fn prove_over<'a, PD, Prover: StackedReductionProver<'a, Backend, PD>>(
    device: &'a PD,
    committed: &'a Committed,
    r: &[EF],
    challenges: &[EF],
) -> (Proof, Given) {
    let mut transcript = Given::new(challenges);
    let (proof, u) = prove_stacked_opening_reduction::<Config, Backend, PD, Given, Prover>(
        device,
        &mut transcript,
        committed.shape.n_stack as usize,
        committed.data.iter().collect(),
        committed.shape.flags(),
        r,
    );
    assert_eq!(u, challenges[1..]);
    (proof, transcript)
}

/// A run, a call at a time, over the prover of one of the two modules.
macro_rules! stepwise_run {
    ($(#[$doc:meta])* $name:ident over $module:ident) => {
        $(#[$doc])*
        pub struct $name<'a> {
            pub committed: &'a Committed,
            prover: $module::StackedReductionCpu<'a, Config>,
        }

        impl<'a> $name<'a> {
            pub fn start(committed: &'a Committed, r: &[EF], lambda: EF) -> Self {
                let data = committed.data.iter().collect();
                let flags = committed.shape.flags();
                let device = &committed.device;
                let prover = $module::StackedReductionProver::<Backend, Device>::new(
                    device, data, flags, r, lambda,
                );
                Self { committed, prover }
            }

            pub fn first_polynomial(&mut self) -> Vec<EF> {
                use $module::StackedReductionProver;
                let prover = &mut self.prover;
                StackedReductionProver::<Backend, Device>::batch_sumcheck_uni_round0_poly(prover)
                    .into_coeffs()
            }

            pub fn fold_at_u_0(&mut self, u_0: EF) {
                use $module::StackedReductionProver;
                let prover = &mut self.prover;
                StackedReductionProver::<Backend, Device>::fold_ple_evals(prover, u_0);
            }

            /// The values at 1 and 2. The original's argument `_u_prev` is not read.
            pub fn pair(&mut self, round: usize) -> [EF; 2] {
                use $module::StackedReductionProver;
                let (prover, unread) = (&mut self.prover, EF::ZERO);
                StackedReductionProver::<Backend, Device>::batch_sumcheck_poly_eval(
                    prover, round, unread,
                )
            }

            pub fn fold(&mut self, round: usize, u: EF) {
                use $module::StackedReductionProver;
                let prover = &mut self.prover;
                StackedReductionProver::<Backend, Device>::fold_mle_evals(prover, round, u);
            }

            pub fn openings(self) -> Vec<EF> {
                use $module::StackedReductionProver;
                let openings =
                    StackedReductionProver::<Backend, Device>::into_stacked_openings(self.prover);
                openings.concat()
            }
        }
    };
}

stepwise_run! {
    /// Over the original.
    Run over stacked_reduction
}

stepwise_run! {
    /// Over the copy of the original whose work buffers can be read.
    PeekedRun over stacked_reduction_and_peek
}

impl PeekedRun<'_> {
    /// q_evals, eq_r, k_rot_r and eq_ub in document 01's places: the live values first, zeros after.
    pub fn work_buffers(&self) -> [Vec<u32>; 4] {
        let Buffers {
            q_evals,
            eq_r,
            k_rot_r,
            eq_ub,
        } = peek::buffers(&self.prover);
        let shape = &self.committed.shape;
        let mut q_evals = flat(&q_evals.concat());
        q_evals.resize((self.committed.width() * 4) << shape.n_stack, 0);
        [
            q_evals,
            tables(shape, &eq_r),
            tables(shape, &k_rot_r),
            flat(eq_ub),
        ]
    }
}

/// Every table from its own start, 4 * 2^n_lift words for each distinct log height.
fn tables(shape: &Shape, live: &[(usize, &[EF])]) -> Vec<u32> {
    let mut out = vec![];
    for log_height in shape.log_heights() {
        let end = out.len() + (4 << shape.n_lift(log_height));
        if let Some((_, values)) = live.iter().find(|t| t.0 == log_height as usize) {
            out.extend(flat(values));
        }
        out.resize(end, 0);
    }
    out
}
