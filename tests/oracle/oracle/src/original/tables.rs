//! poly_common.rs, prover/poly.rs and the two folds of prover/sumcheck.rs, at our field.
use crate::field::{element, elements, flat, EF};
pub use stark_backend::{
    poly_common::{
        eval_eq_mle, eval_eq_prism, eval_eq_rot_cube, eval_eq_uni, eval_eq_uni_at_one, eval_in_uni,
        eval_rot_kernel_prism, horner_eval, interpolate_linear_at_01, interpolate_quadratic_at_012,
    },
    prover::{
        poly::evals_eq_hypercube,
        sumcheck::{fold_mle_evals, fold_ple_evals},
        ColMajorMatrix, MatrixDimensions, MatrixView, StridedColMajorMatrixView,
    },
};

/// The table with a starting element, which the original's does not take: each of its entries times that element.
pub fn started(start: [u32; 4], x: &[u32]) -> Vec<u32> {
    let mut table: Vec<EF> = evals_eq_hypercube(&elements(x));
    for entry in &mut table {
        *entry *= element(start);
    }
    flat(&table)
}
