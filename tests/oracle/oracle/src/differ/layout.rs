//! Planning, `get`, the bounds of the view, and planning in whatever order.
use super::{
    lent::Lent,
    lists::{for_planning, words_for_records, Drawn},
    unsorted, Tally,
};
use crate::{
    field::P,
    library::{GetAnswer, Library, PlanAnswer, ViewAnswer},
    original,
    rng::Rng,
    scope,
};

pub fn case(rng: &mut Rng, library: Option<&dyn Library>, tally: &mut Tally) {
    let drawn = for_planning(rng);
    planning(rng, &drawn, library, tally);
    for _ in 0..3 {
        let (matrix, column) = index(rng, &drawn);
        get(&drawn, matrix, column, library, tally);
        view(rng, &drawn, matrix, library, tally);
    }
    unsorted::planning(rng, &drawn, library, tally);
}

/// The original's plan, asked wherever document 01 accepts the list or says 4 or 5.
fn original_plan(drawn: &Drawn, number: u32) -> Option<original::Plan> {
    let plan = || original::plan(drawn.l_skip, drawn.n_stack, &drawn.matrices());
    match number {
        0 => Some(plan().expect("the original plans what document 01 accepts")),
        4 | 5 => {
            assert_eq!(plan(), Err(number), "{drawn:?}");
            None
        }
        _ => None,
    }
}

fn planning(rng: &mut Rng, drawn: &Drawn, library: Option<&dyn Library>, tally: &mut Tally) {
    let Drawn {
        l_skip,
        n_stack,
        ref list,
    } = *drawn;
    let length = words_for_records(rng, drawn);
    let number = scope::planning(l_skip, n_stack, list, length)
        .err()
        .unwrap_or(0);
    tally.number(number);
    let plan = original_plan(drawn, number);
    let answer = plan.as_ref().map_or_else(
        || PlanAnswer {
            number,
            ..Default::default()
        },
        |plan| PlanAnswer {
            number,
            width: plan.width,
            height: plan.height,
            columns: plan.records.len() as u32,
        },
    );
    let mark = rng.next();
    let written = plan.as_ref().map(|plan| plan.records.as_flattened());
    let expected = (answer, Lent::new(length, mark).expected(written));
    let ours = library.map(|l| {
        let mut records = Lent::new(length, mark);
        let answer = l.plan(l_skip, n_stack, list, records.slice());
        (answer, records.entries())
    });
    tally.compare("plan", &(drawn, length), expected, ours);
}

/// A matrix and a column, each now and then one that is not there.
fn index(rng: &mut Rng, drawn: &Drawn) -> (u32, u32) {
    let matrices = drawn.matrices();
    let matrix = match rng.below(8) {
        0 => rng.pick(&[matrices.len() as u32, 255, 256, 4_095, 4_096, u32::MAX]),
        _ => rng.below(matrices.len().max(1) as u32),
    };
    let width = matrices.get(matrix as usize).map_or(0, |m| m.width);
    let column = match rng.below(4) {
        0 => rng.pick(&[width, width.saturating_add(1), 4_096, u32::MAX]),
        _ => rng.below(width.max(1)),
    };
    (matrix, column)
}

fn get(drawn: &Drawn, matrix: u32, column: u32, library: Option<&dyn Library>, tally: &mut Tally) {
    let (l_skip, n_stack, list) = (drawn.l_skip, drawn.n_stack, &drawn.list);
    let answer = scope::get(l_skip, n_stack, list, matrix, column);
    let number = answer.err().unwrap_or(0);
    tally.number(number);
    let record = answer.map_or([0; 2], |_| {
        let layout = original::layout(l_skip, n_stack, &drawn.matrices()).expect("accepted");
        let (matrix, column) = (matrix as usize, column as usize);
        let slice = layout.get(matrix, column).expect("the column is there");
        original::record(matrix, column, slice)
    });
    let ours = library.map(|l| l.get(l_skip, n_stack, list, matrix, column));
    let expected = GetAnswer { number, record };
    tally.compare("get", &(drawn, matrix, column), expected, ours);
}

/// Larger stacked matrices are planned, and not lent to the view.
const MAX_LENT: u64 = 1 << 16;

/// The view's number and bounds; the stacking group compares them with the original's view of real cells.
fn view(
    rng: &mut Rng,
    drawn: &Drawn,
    matrix: u32,
    library: Option<&dyn Library>,
    tally: &mut Tally,
) {
    let (l_skip, n_stack, list) = (drawn.l_skip, drawn.n_stack, &drawn.list);
    let Some(stacked) = lent_to_the_view(rng, drawn) else {
        return;
    };
    let answer = scope::view(l_skip, n_stack, list, matrix, Some(&stacked));
    let number = answer.err().unwrap_or(0);
    tally.number(number);
    let (start, length) = answer.unwrap_or_default();
    let expected = ViewAnswer {
        number,
        start,
        length,
    };
    let ours = library.map(|l| l.mat_place(l_skip, n_stack, list, &stacked, matrix));
    tally.compare("mat_place", &(drawn, matrix), expected, ours);
}

/// A stacked matrix of the list's size, now and then of another or with a word that is not below p.
fn lent_to_the_view(rng: &mut Rng, drawn: &Drawn) -> Option<Vec<u32>> {
    let size = scope::stacked_size(drawn.l_skip, drawn.n_stack, &drawn.list).unwrap_or(0);
    if size > MAX_LENT {
        return None;
    }
    let mut words: Vec<u32> = (0..size).map(|_| rng.below(P)).collect();
    if rng.once_in(8) {
        words.push(0);
    }
    if !words.is_empty() && rng.once_in(8) {
        let at = rng.below(words.len() as u32) as usize;
        words[at] = P;
    }
    Some(words)
}
