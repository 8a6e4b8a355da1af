//! The stacking call: heights in place of log heights, the cells as one slice.
use super::{list::*, refuse_if, words::check_words, Answer};

/// The stacked matrix's words, or the number. `out` is the length of the slice lent for it.
pub fn stacking(
    l_skip: u32,
    n_stack: u32,
    list: &[u32],
    cells: &[u32],
    out: usize,
) -> Answer<Vec<u32>> {
    let with_heights = triples(list);
    check_sizes(l_skip, n_stack)?;
    check_matrices(&with_heights)?;
    check_columns(&with_heights)?;
    let with_logs = logs(&with_heights)?;
    let plan = walk(l_skip, n_stack, &with_logs)?;
    check_falling(&with_logs)?;
    refuse_if(plan.places.is_empty(), 7)?;
    let asked: u64 = with_heights
        .iter()
        .map(|t| t.width as u64 * t.height as u64)
        .sum();
    let length = plan.width * plan.height;
    refuse_if(
        list.len() % 3 != 0 || cells.len() as u64 != asked || out as u64 != length,
        9,
    )?;
    check_words(&[cells])?;

    let mut stacked = vec![0; length as usize];
    let mut cells = cells.iter();
    for place in &plan.places {
        let stride = 1u64 << l_skip.saturating_sub(place.log_height);
        for t in 0..1u64 << place.log_height {
            let at = place.stack_column * plan.height + place.row + t * stride;
            stacked[at as usize] = *cells.next().expect("as many cells as asked");
        }
    }
    Ok(stacked)
}

/// 3 if a height lacks its one bit, at width 0 too.
fn logs(list: &[Triple]) -> Answer<Vec<Triple>> {
    refuse_if(list.iter().any(|t| t.height.count_ones() != 1), 3)?;
    Ok(list
        .iter()
        .map(|t| Triple {
            height: t.height.trailing_zeros(),
            ..*t
        })
        .collect())
}
