//! Planning in whatever order, against the original's plan of the list that a stable sort makes.
use super::{
    lent::Lent,
    lists::{in_whatever_order, words_for_records, Drawn},
    Tally,
};
use crate::{
    library::{Library, PlanAnswer},
    original,
    rng::Rng,
    scope,
};

/// On the matrices of a drawn list in another order.
pub fn planning(rng: &mut Rng, drawn: &Drawn, library: Option<&dyn Library>, tally: &mut Tally) {
    let drawn = in_whatever_order(rng, drawn);
    let (l_skip, n_stack, list) = (drawn.l_skip, drawn.n_stack, &drawn.list);
    let (matrices, words) = lengths(rng, &drawn);
    let number = scope::unsorted_planning(l_skip, n_stack, list, matrices, words)
        .err()
        .unwrap_or(0);
    tally.number(number);
    let planned = original_plan(&drawn, number);
    let mut answer = PlanAnswer {
        number,
        ..Default::default()
    };
    let (mut positions, mut records) = (None, None);
    if let Some((arrivals, plan)) = &planned {
        answer.width = plan.width;
        answer.height = plan.height;
        answer.columns = plan.records.len() as u32;
        positions = Some(arrivals.as_slice());
        records = Some(plan.records.as_flattened());
    }
    let marks = (rng.next() as u32, rng.next());
    let lent = || (Lent::new(matrices, marks.0), Lent::new(words, marks.1));
    let (arrivals, cols) = lent();
    let expected = (answer, arrivals.expected(positions), cols.expected(records));
    let ours = library.map(|l| {
        let (mut arrivals, mut cols) = lent();
        let answer = l.plan_unsorted(l_skip, n_stack, list, arrivals.slice(), cols.slice());
        (answer, arrivals.entries(), cols.entries())
    });
    let given = (&drawn, matrices, words);
    tally.compare("plan_unsorted", &given, expected, ours);
}

/// Of the slices for the positions and the records: a word a matrix, now and then one more or less, and two a
/// column.
fn lengths(rng: &mut Rng, drawn: &Drawn) -> (usize, usize) {
    let matrices = drawn.list.len() / 3;
    let matrices = match rng.below(8) {
        0 => matrices.saturating_add_signed(rng.pick(&[-1, 1])),
        _ => matrices,
    };
    (matrices, words_for_records(rng, drawn))
}

/// The positions, and the original's plan of the sorted list: asked where document 02 accepts the list, which
/// the original must too, or says 4.
fn original_plan(drawn: &Drawn, number: u32) -> Option<(Vec<u32>, original::Plan)> {
    let planned = || original::plan_unsorted(drawn.l_skip, drawn.n_stack, &drawn.matrices());
    match number {
        0 => Some(planned().expect("the original plans what is accepted")),
        4 => {
            assert_eq!(planned(), Err(4), "{drawn:?}");
            None
        }
        _ => None,
    }
}
