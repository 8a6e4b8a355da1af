//! The stacking call and, on what it made, the bounds of every view.
use super::{
    lent::Lent,
    lists::{for_stacking, Drawn},
    Tally,
};
use crate::{
    field::{canonical, P},
    library::{Library, StackAnswer, ViewAnswer},
    original, random,
    rng::Rng,
    scope,
    shape::{matrix, triples, triples_with_heights, Matrix},
};

/// Cells that a damaged list may ask for at most.
const MAX_CELLS: u64 = 1 << 16;

/// Number, width and height; number, start and length.
const ANSWER: usize = 3;

pub fn case(rng: &mut Rng, library: Option<&dyn Library>, tally: &mut Tally) {
    let drawn = for_stacking(rng);
    let list = with_heights(rng, &drawn);
    let (cells, length) = cells_and_length(rng, &drawn, &list);
    compare(rng, &drawn, &list, &cells, length, library, tally);
}

/// The stacked matrix of an accepted list and of random cells, and the bounds of its views.
pub fn accepted(
    rng: &mut Rng,
    drawn: &Drawn,
    library: Option<&dyn Library>,
    tally: &mut Tally,
) -> Vec<u32> {
    let matrices = drawn.matrices();
    let cells = rng.words(random::cell_count(&matrices));
    let size = scope::stacked_size(drawn.l_skip, drawn.n_stack, &drawn.list);
    let length = size.expect("an accepted list") as usize;
    let list = triples_with_heights(&matrices);
    let stacked = compare(rng, drawn, &list, &cells, length, library, tally);
    stacked.expect("an accepted list")
}

/// The stacking call on a list with heights; answers the stacked matrix where it is accepted.
fn compare(
    rng: &mut Rng,
    drawn: &Drawn,
    list: &[u32],
    cells: &[u32],
    length: usize,
    library: Option<&dyn Library>,
    tally: &mut Tally,
) -> Option<Vec<u32>> {
    let matrices = with_logs(list);
    let (l_skip, n_stack) = (drawn.l_skip, drawn.n_stack);
    let answer = scope::stacking(l_skip, n_stack, list, cells, length);
    let number = *answer.as_ref().err().unwrap_or(&0);
    tally.number(number);
    tally.words(ANSWER + length);
    let mut expected = StackAnswer {
        number,
        ..Default::default()
    };
    let mut written = None;
    if let Ok(words) = answer {
        let made = stacked_by_the_original(drawn, &matrices, cells, library, tally);
        assert_eq!(made, words, "{drawn:?}");
        expected.height = 1 << (l_skip + n_stack);
        expected.width = made.len() as u32 / expected.height;
        written = Some(made);
    } else {
        check_original_refuses(drawn, &matrices, number);
    }
    let mark = rng.next() as u32;
    let expected = (
        expected,
        Lent::new(length, mark).expected(written.as_deref()),
    );
    let ours = library.map(|l| {
        let mut out = Lent::new(length, mark);
        let answer = l.stacked_matrix(l_skip, n_stack, list, cells, out.slice());
        (answer, out.entries())
    });
    let given = (l_skip, n_stack, list, cells, length);
    tally.compare("stacked_matrix", &given, expected, ours);
    written
}

/// Heights in place of log heights, now and then one that lacks its one bit.
fn with_heights(rng: &mut Rng, drawn: &Drawn) -> Vec<u32> {
    let mut list = drawn.list.clone();
    let matrices = list.len() / 3;
    for i in 0..matrices {
        list[3 * i + 1] = 1u32.checked_shl(list[3 * i + 1]).unwrap_or(1 << 31);
    }
    if matrices > 0 && rng.once_in(12) {
        let at = 3 * rng.below(matrices as u32) as usize + 1;
        list[at] = rng.pick(&[0, 3, 5, 6, 12, 4_095, u32::MAX]);
    }
    list
}

/// As many cells and as long a slice as the list asks for, if it asks for a bearable number; now and
/// then one more or less, or a word that is not below p.
fn cells_and_length(rng: &mut Rng, drawn: &Drawn, list: &[u32]) -> (Vec<u32>, usize) {
    let asked: u64 = list
        .chunks_exact(3)
        .map(|t| t[0] as u64 * t[1] as u64)
        .sum();
    let mut cells = rng.words(if asked > MAX_CELLS { 5 } else { asked as usize });
    let plan = scope::planning(
        drawn.l_skip,
        drawn.n_stack,
        &triples(&drawn.matrices()),
        2 * drawn.columns() as usize,
    );
    let mut length = plan.map_or(3, |plan| (plan.width * plan.height) as usize);
    match rng.below(16) {
        0 => cells.push(rng.word()),
        1 => drop(cells.pop()),
        2 => length += 1,
        3 => length = length.saturating_sub(1),
        4 | 5 if !cells.is_empty() => {
            let at = rng.below(cells.len() as u32) as usize;
            cells[at] = rng.pick(&[P, P + 1, u32::MAX]);
        }
        _ => {}
    }
    (cells, length)
}

/// The log heights that the original takes, where every height has its one bit.
fn with_logs(list: &[u32]) -> Vec<Matrix> {
    list.chunks_exact(3)
        .map(|t| matrix(t[0], t[1].trailing_zeros(), t[2]))
        .collect()
}

/// 4 and 5 are the original's own.
fn check_original_refuses(drawn: &Drawn, matrices: &[Matrix], number: u32) {
    if number == 4 || number == 5 {
        let refused = original::plan(drawn.l_skip, drawn.n_stack, matrices);
        assert_eq!(refused, Err(number), "{drawn:?}");
    }
}

/// The original's words; the bounds of each of its views are compared on the way.
fn stacked_by_the_original(
    drawn: &Drawn,
    matrices: &[Matrix],
    cells: &[u32],
    library: Option<&dyn Library>,
    tally: &mut Tally,
) -> Vec<u32> {
    let (l_skip, n_stack, list) = (drawn.l_skip, drawn.n_stack, triples(matrices));
    let (q, layout) = original::stack(l_skip, n_stack, matrices, cells).expect("accepted");
    let words = canonical(&q.values);
    for (index, _) in matrices.iter().enumerate().filter(|(_, m)| m.width > 0) {
        let (start, length) = original::view(&layout, &q, index);
        let expected = ViewAnswer {
            number: 0,
            start: start as u64,
            length: length as u64,
        };
        let ours = library.map(|l| l.mat_place(l_skip, n_stack, &list, &words, index as u32));
        tally.words(ANSWER);
        tally.compare("mat_place", &(drawn, index), expected, ours);
    }
    words
}
