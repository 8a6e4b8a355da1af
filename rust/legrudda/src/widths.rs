//! The stack widths of a run's commitments, laid out by the library.
use crate::layout;

/// The stack width of each commitment; None where the lists end too early or a commitment is refused; a start is then refused too.
pub(crate) fn stack_widths(
    l_skip: u32,
    n_stack: u32,
    counts: &[u32],
    lists: &[u32],
) -> Option<Vec<usize>> {
    commitments(counts, lists)
        .map(|list| stack_width(l_skip, n_stack, list?))
        .collect()
}

/// The list of each commitment; None where the lists have ended, or for more commitments than a run can have.
fn commitments<'a>(
    counts: &'a [u32],
    mut lists: &'a [u32],
) -> impl Iterator<Item = Option<&'a [u32]>> {
    const MOST: usize = 16;
    counts.iter().enumerate().map(move |(commitment, &count)| {
        let words = 3 * count as usize;
        let list = lists.get(..words).filter(|_| commitment < MOST)?;
        lists = &lists[words..];
        Some(list)
    })
}

/// One more than the stack column in which the last column lies; this needs no room for records.
fn stack_width(l_skip: u32, n_stack: u32, list: &[u32]) -> Option<usize> {
    let last = list.chunks_exact(3).rposition(|matrix| matrix[0] > 0)?;
    let columns = list[3 * last] as usize;
    let slice = layout::get(l_skip, n_stack, list, last, columns - 1).ok()?;
    Some(slice.col_idx as usize + 1)
}
