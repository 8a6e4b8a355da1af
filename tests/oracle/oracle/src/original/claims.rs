//! True openings of trace columns at r, through `Ple` of prover/poly.rs.
use stark_backend::prover::{poly::Ple, stacked_pcs::StackedLayout, ColMajorMatrix};

use crate::{
    field::{PrimeCharacteristicRing, EF, F},
    shape::Shape,
};

/// The value at r of one column, or of the column rotated by one row; a short one is read over the
/// raised generator, at the raised r_0.
fn column_value(l_skip: u32, column: &[F], r: &[EF], rotated: bool) -> EF {
    let l_skip = l_skip as usize;
    let log_height = column.len().trailing_zeros() as usize;
    let mut column = column.to_vec();
    if rotated {
        column.rotate_left(1);
    }
    let l = l_skip.min(log_height);
    let r_0 = r[0].exp_power_of_2(l_skip - l);
    Ple::from_evaluations(l, &column).eval_at_point(l, r_0, &r[1..1 + log_height - l])
}

/// All claims in lambda order: a (plain, rotated) pair for a flagged column, else one.
pub fn claims(
    shape: &Shape,
    stacked: &[(&StackedLayout, &ColMajorMatrix<F>)],
    r: &[EF],
) -> Vec<EF> {
    let flags = shape.flags();
    let mut claims = vec![];
    for ((layout, matrix), flags) in stacked.iter().zip(&flags) {
        for (index, _, slice) in &layout.sorted_cols {
            let column: Vec<F> = matrix.column(slice.col_idx)
                [slice.row_idx..slice.row_idx + slice.len(layout.l_skip())]
                .iter()
                .step_by(slice.stride(layout.l_skip()))
                .copied()
                .collect();
            claims.push(column_value(shape.l_skip, &column, r, false));
            if flags[*index] {
                claims.push(column_value(shape.l_skip, &column, r, true));
            }
        }
    }
    claims
}
