//! Stacking and the view.
use super::session::{with_words, Origin, Session, FIRST_COMMITMENT};
use crate::{
    field::{canonical, F, P},
    original::{self, ColMajorMatrix, StackedLayout},
    random,
    rng::Rng,
    scope,
    shape::{matrix, triples, triples_with_heights, Matrix},
};

pub fn session() -> Session {
    let mut s = Session::new("stacking");
    s.set_list(1, 1, &[1, 4, 0, 2, 1, 1]);
    s.set("cells", &[5, 6, 7, 8, 9, 3]);
    let command = format!("stack {FIRST_COMMITMENT}");
    s.ask(Origin::Document, &command, "ok 5 6 7 8 9 0 3 0");
    for (l_skip, n_stack, list) in fixed() {
        let mut rng = Rng::of_case(0x57AC, l_skip as u64);
        stack_and_view(&mut s, &mut rng, l_skip, n_stack, &list);
    }
    for case in 0..30 {
        let mut rng = Rng::of_case(0x57AD, case);
        let (l_skip, n_stack) = (rng.below(5), rng.below(4));
        let list = random::list(&mut rng, l_skip, n_stack, 3, 3);
        stack_and_view(&mut s, &mut rng, l_skip, n_stack, &list);
    }
    stacking_refusals(&mut s);
    view_refusals(&mut s);
    s
}

/// Short columns at every l_skip.
fn fixed() -> Vec<(u32, u32, Vec<Matrix>)> {
    let short = |l_skip: u32| {
        let list = vec![matrix(1, l_skip / 2, 0), matrix(1, 0, 1)];
        (l_skip, l_skip % 2, list)
    };
    (0..=10).map(short).collect()
}

fn stack_and_view(s: &mut Session, rng: &mut Rng, l_skip: u32, n_stack: u32, list: &[Matrix]) {
    let cells = rng.words(random::cell_count(list));
    let stacked = stack(s, l_skip, n_stack, list, &cells);
    s.set_list(l_skip, n_stack, &triples(list));
    view(s, list, &stacked, 0..list.len());
}

/// A stacked matrix of the original, and its layout.
type Stacked = (ColMajorMatrix<F>, StackedLayout);

/// Stacking of these cells.
pub fn stack(
    s: &mut Session,
    l_skip: u32,
    n_stack: u32,
    list: &[Matrix],
    cells: &[u32],
) -> Stacked {
    let stacked = original::stack(l_skip, n_stack, list, cells).expect("an accepted list");
    s.set_list(l_skip, n_stack, &triples_with_heights(list));
    s.set("cells", cells);
    let command = format!("stack {FIRST_COMMITMENT}");
    s.done(&command, &canonical(&stacked.0.values));
    stacked
}

/// The views of these matrices of the list that was set last, in a stacked matrix.
pub fn view(
    s: &mut Session,
    list: &[Matrix],
    (q, layout): &Stacked,
    indices: impl IntoIterator<Item = usize>,
) {
    s.set("matrix", &canonical(&q.values));
    for index in indices {
        let command = format!("view {FIRST_COMMITMENT} {index}");
        if list.get(index).is_none_or(|m| m.width == 0) {
            s.refused(&command, 11);
        } else {
            let (start, length) = original::view(layout, q, index);
            s.done(&command, &[start as u32, length as u32]);
        }
    }
}

fn stacking_refusals(s: &mut Session) {
    for (l_skip, n_stack, list, cells) in [
        (11, 0, vec![1, 1, 0], vec![1]),
        (0, 0, vec![1, 1, 2], vec![1]),
        (0, 0, vec![4_097, 1, 0], vec![1]),
        (0, 2, vec![1, 3, 0], vec![1, 2, 3]),
        (0, 2, vec![1, 0, 0], vec![]),
        (0, 2, vec![1, 1, 0, 0, 3, 0], vec![1]),
        (1, 1, vec![1, 8, 0], vec![1; 8]),
        (0, 3, vec![1, 4, 0, 1, 8, 0], vec![1; 12]),
        (0, 2, vec![1, 1, 0, 1, 2, 0], vec![1; 3]),
        (0, 2, vec![0, 1, 0], vec![]),
        (0, 2, vec![], vec![]),
        (0, 2, vec![1, 2, 0], vec![1]),
        (0, 2, vec![1, 2, 0], vec![1; 3]),
        (0, 2, vec![1, 2, 0], vec![1, P]),
        (0, 2, vec![1, 2, 0], vec![1, P - 1]),
    ] {
        s.set_list(l_skip, n_stack, &list);
        s.set("cells", &cells);
        let command = format!("stack {FIRST_COMMITMENT}");
        let height = 1usize << (l_skip + n_stack).min(24);
        match scope::stacking(l_skip, n_stack, &list, &cells, height) {
            Err(number) => s.refused(&command, number),
            Ok(words) => s.ask(Origin::Document, &command, &with_words("ok", &words)),
        }
    }
}

fn view_refusals(s: &mut Session) {
    for (list, words, index) in [
        (vec![1, 0, 0], vec![7], 1),
        (vec![1, 0, 0], vec![], 0),
        (vec![1, 0, 0], vec![7, 7], 0),
        (vec![0, 0, 0], vec![], 0),
        (vec![1, 1, 0], vec![7], 0),
        (vec![1, 0, 0], vec![7], 0),
    ] {
        s.set_list(0, 0, &list);
        s.set("matrix", &words);
        let command = format!("view {FIRST_COMMITMENT} {index}");
        match scope::view(0, 0, &list, index, Some(&words)) {
            Err(number) => s.refused(&command, number),
            Ok((start, length)) => {
                let answer = with_words("ok", &[start as u32, length as u32]);
                s.ask(Origin::Document, &command, &answer);
            }
        }
    }
}
