//! The planning call, `get` and the view, on one commitment's list.
use super::{list::*, refuse_if, words::check_words, Answer, Place, Plan};

/// 1, 2, 4, 5 and 6, on the whole triples that are there.
pub(super) fn planned(l_skip: u32, n_stack: u32, list: &[u32]) -> Answer<Plan> {
    let list = triples(list);
    check_sizes(l_skip, n_stack)?;
    check_matrices(&list)?;
    check_columns(&list)?;
    let plan = walk(l_skip, n_stack, &list)?;
    check_falling(&list)?;
    Ok(plan)
}

fn check_list_length(list: &[u32]) -> Answer<()> {
    refuse_if(list.len() % 3 != 0, 9)
}

/// The slice lent for the records has two u64 a column.
pub fn planning(l_skip: u32, n_stack: u32, list: &[u32], records: usize) -> Answer<Plan> {
    let plan = planned(l_skip, n_stack, list)?;
    check_list_length(list)?;
    refuse_if(records != 2 * plan.places.len(), 9)?;
    Ok(plan)
}

/// Document 02's call for matrices in whatever order. 1, 2 and 4 hold in every order, 5 and 6 not in the
/// one that it makes. The slices lent for the positions and the records have one u32 a matrix and two
/// u64 a column.
pub fn unsorted_planning(
    l_skip: u32,
    n_stack: u32,
    list: &[u32],
    arrivals: usize,
    records: usize,
) -> Answer<()> {
    let matrices = triples(list);
    check_sizes(l_skip, n_stack)?;
    check_matrices(&matrices)?;
    check_columns(&matrices)?;
    let tall = |t: &Triple| t.width > 0 && t.height > l_skip + n_stack;
    refuse_if(matrices.iter().any(tall), 4)?;
    check_list_length(list)?;
    let columns: u64 = matrices.iter().map(|t| t.width as u64).sum();
    refuse_if(
        arrivals != matrices.len() || records as u64 != 2 * columns,
        9,
    )
}

pub fn get(l_skip: u32, n_stack: u32, list: &[u32], matrix: u32, column: u32) -> Answer<Place> {
    let plan = planned(l_skip, n_stack, list)?;
    check_list_length(list)?;
    plan.places
        .into_iter()
        .find(|p| p.matrix == matrix as usize && p.column == column)
        .ok_or(11)
}

/// The words of the stacked matrix, where the list is not refused.
pub fn stacked_size(l_skip: u32, n_stack: u32, list: &[u32]) -> Option<u64> {
    let plan = planned(l_skip, n_stack, list).ok()?;
    Some(plan.width * plan.height)
}

/// Start and length of a matrix's part of the stacked matrix. With `words`, the stacked matrix is lent
/// and its length and words are checked; without, the call gives the bounds alone.
pub fn view(
    l_skip: u32,
    n_stack: u32,
    list: &[u32],
    matrix: u32,
    words: Option<&[u32]>,
) -> Answer<(u64, u64)> {
    let plan = planned(l_skip, n_stack, list)?;
    check_list_length(list)?;
    if let Some(words) = words {
        refuse_if(words.len() as u64 != plan.width * plan.height, 9)?;
        check_words(&[words])?;
    }
    let places: Vec<_> = plan
        .places
        .iter()
        .filter(|p| p.matrix == matrix as usize)
        .collect();
    let first = places.first().ok_or(11u32)?;
    let rows = (1u64 << first.log_height).max(1 << l_skip);
    Ok((
        first.stack_column * plan.height + first.row,
        rows * places.len() as u64,
    ))
}
