//! prover/stacked_pcs.rs: the plan, stacking and the view.
use std::cmp::Reverse;

use stark_backend::prover::{
    error::StackedPcsError,
    stacked_pcs::{stacked_matrix, StackedLayout, StackedSlice},
    ColMajorMatrix,
};

use super::empty_matrix::matrix_of_width_zero;
use crate::{
    field::{canonical, residues, PrimeCharacteristicRing, F},
    record::{packed, Record},
    shape::{Matrix, Shape},
};

/// What the planning call returns: stack width, H, one record a column.
#[derive(Clone, Debug, PartialEq, Eq)]
pub struct Plan {
    pub width: u32,
    pub height: u32,
    pub records: Vec<Record>,
}

/// `StackedLayout::new`; an error as document 01's number.
pub fn layout(l_skip: u32, n_stack: u32, list: &[Matrix]) -> Result<StackedLayout, u32> {
    let sorted = list
        .iter()
        .map(|m| (m.width as usize, m.log_height as usize))
        .collect();
    StackedLayout::new(l_skip as usize, (l_skip + n_stack) as usize, sorted).map_err(number)
}

/// Those of all commitments, on lists that are accepted.
pub fn layouts(shape: &Shape) -> Vec<StackedLayout> {
    let layout = |list: &Vec<Matrix>| layout(shape.l_skip, shape.n_stack, list);
    let layouts: Result<_, u32> = shape.lists.iter().map(layout).collect();
    layouts.expect("accepted lists")
}

/// The stack columns of all commitments.
pub fn stack_columns(shape: &Shape) -> usize {
    layouts(shape).iter().map(StackedLayout::width).sum()
}

fn number(error: StackedPcsError) -> u32 {
    match error {
        StackedPcsError::LayoutHeightExceeded { .. } => 4,
        StackedPcsError::LayoutRowOverflow { .. } => 5,
        other => panic!("no number for {other}"),
    }
}

pub fn plan(l_skip: u32, n_stack: u32, list: &[Matrix]) -> Result<Plan, u32> {
    let layout = layout(l_skip, n_stack, list)?;
    let records = layout
        .sorted_cols
        .iter()
        .map(|(matrix, column, slice)| record(*matrix, *column, slice))
        .collect();
    Ok(Plan {
        width: layout.width() as u32,
        height: layout.height() as u32,
        records,
    })
}

/// The matrices by falling log height, the wider first among equals, then the earlier, and the position of each
/// before them.
pub fn sorted(list: &[Matrix]) -> (Vec<u32>, Vec<Matrix>) {
    let mut sorted: Vec<(u32, Matrix)> = (0..).zip(list.iter().copied()).collect();
    // A stable sort.
    sorted.sort_by_key(|(_, m)| Reverse((m.log_height, m.width)));
    sorted.into_iter().unzip()
}

/// The positions, and the plan of the sorted list.
pub fn plan_unsorted(l_skip: u32, n_stack: u32, list: &[Matrix]) -> Result<(Vec<u32>, Plan), u32> {
    let (positions, sorted) = sorted(list);
    Ok((positions, plan(l_skip, n_stack, &sorted)?))
}

pub fn record(matrix: usize, column: usize, slice: &StackedSlice) -> Record {
    let fields = [
        matrix,
        column,
        slice.col_idx,
        slice.row_idx,
        slice.log_height(),
    ];
    let [matrix, column, stack_column, row, log_height] = fields.map(|field| field as u64);
    packed(matrix, column, stack_column, row, log_height)
}

/// `stacked_matrix` on the cells, matrix by matrix and column by column.
pub fn stack(
    l_skip: u32,
    n_stack: u32,
    list: &[Matrix],
    cells: &[u32],
) -> Result<(ColMajorMatrix<F>, StackedLayout), u32> {
    let mut left = residues(cells);
    let mut traces = vec![];
    for m in list {
        let rest = left.split_off((m.width as usize) << m.log_height);
        traces.push(if m.width == 0 {
            matrix_of_width_zero(1 << m.log_height)
        } else {
            ColMajorMatrix::new(left, m.width as usize)
        });
        left = rest;
    }
    let traces: Vec<_> = traces.iter().collect();
    stacked_matrix(l_skip as usize, n_stack as usize, &traces).map_err(number)
}

/// The words of `stacked_matrix`.
pub fn stacked(l_skip: u32, n_stack: u32, list: &[Matrix], cells: &[u32]) -> Vec<u32> {
    let (matrix, _) = stack(l_skip, n_stack, list, cells).expect("an accepted list");
    canonical(&matrix.values)
}

/// Where `mat_view` begins in the stacked matrix, and its length.
pub fn view(layout: &StackedLayout, matrix: &ColMajorMatrix<F>, index: usize) -> (usize, usize) {
    let part = layout.mat_view(index, matrix).values();
    let bytes = part.as_ptr() as usize - matrix.values.as_ptr() as usize;
    (bytes / size_of::<F>(), part.len())
}

/// `stacked_matrix` on one column of one cell and a matrix of width 0 with any height.
pub fn stack_with_empty_matrix(l_skip: usize, n_stack: usize, height: usize) -> Vec<u32> {
    let column = ColMajorMatrix::new(vec![F::ONE], 1);
    let traces = [&column, &matrix_of_width_zero(height)];
    let (matrix, _) = stacked_matrix(l_skip, n_stack, &traces).expect("the column fits");
    canonical(&matrix.values)
}
