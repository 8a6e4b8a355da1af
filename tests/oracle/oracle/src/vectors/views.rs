//! The strided view by its methods: of the matrices of a stacked one, and of slices.
use super::{many, session::Session};
use crate::{
    field::{canonical, residues, F, P},
    original::{self, MatrixDimensions, MatrixView, StridedColMajorMatrixView},
    random,
    rng::Rng,
    scope,
    shape::{matrix, triples, Matrix},
};

pub fn session() -> Session {
    let mut s = Session::new("views");
    for (index, (l_skip, n_stack, list)) in fixed().into_iter().enumerate() {
        let mut rng = Rng::of_case(0x71E5, index as u64);
        views(&mut s, &mut rng, l_skip, n_stack, &list);
    }
    for case in 0..20 {
        let mut rng = Rng::of_case(0x71E6, case);
        let (l_skip, n_stack) = (rng.below(5), rng.below(4));
        let list = random::list(&mut rng, l_skip, n_stack, 3, 3);
        views(&mut s, &mut rng, l_skip, n_stack, &list);
    }
    refusals(&mut s);
    for case in 0..20 {
        slice(&mut s, &mut Rng::of_case(0x71E7, case));
    }
    many::by_view(&mut s);
    s
}

/// Document 01's example, and a short column at every l_skip.
fn fixed() -> Vec<(u32, u32, Vec<Matrix>)> {
    let short = |l_skip: u32| (l_skip, 0, vec![matrix(1, l_skip / 3, 1)]);
    let example = vec![matrix(1, 2, 0), matrix(2, 0, 1)];
    [vec![(1, 1, example)], (1..=10).map(short).collect()].concat()
}

/// Every matrix of a list through the view of the stacked one, and one that is not there.
fn views(s: &mut Session, rng: &mut Rng, l_skip: u32, n_stack: u32, list: &[Matrix]) {
    let cells = rng.words(random::cell_count(list));
    let indices: Vec<_> = (0..=list.len()).collect();
    of_list(s, rng, l_skip, n_stack, list, &cells, &indices);
}

/// The matrices of these indices, of a list with these cells.
pub fn of_list(
    s: &mut Session,
    rng: &mut Rng,
    l_skip: u32,
    n_stack: u32,
    list: &[Matrix],
    cells: &[u32],
    indices: &[usize],
) {
    let (q, layout) = original::stack(l_skip, n_stack, list, cells).expect("an accepted list");
    s.set_list(l_skip, n_stack, &triples(list));
    s.set("matrix", &canonical(&q.values));
    for &index in indices {
        if list.get(index).is_none_or(|m| m.width == 0) {
            for call in ["mat_shape", "mat_view"] {
                s.refused(&format!("{call} {index}"), 11);
            }
            s.refused(&format!("mat_cell {index} 0 0"), 11);
            continue;
        }
        let view = layout.mat_view(index, &q);
        s.done(&format!("mat_shape {index}"), &numbers(&view));
        s.done(&format!("mat_view {index}"), &shown(&view));
        get(s, rng, &format!("mat_cell {index}"), &view);
    }
}

/// Width, height and stride.
fn numbers(view: &StridedColMajorMatrixView<F>) -> [u32; 3] {
    [view.width(), view.height(), view.stride()].map(|x| x as u32)
}

/// These, and the words of the slice.
fn shown(view: &StridedColMajorMatrixView<F>) -> Vec<u32> {
    [&numbers(view)[..], &canonical(view.values())].concat()
}

/// Cells of a view, its last one among them, and some past the last row and column.
fn get(s: &mut Session, rng: &mut Rng, command: &str, view: &StridedColMajorMatrixView<F>) {
    let [width, height, _] = numbers(view);
    let mut places = vec![(height, 0), (0, width), (u32::MAX, u32::MAX)];
    if width * height > 0 {
        places.extend((0..3).map(|_| (rng.below(height), rng.below(width))));
        places.push((height - 1, width - 1));
    }
    for (row, col) in places {
        let command = format!("{command} {row} {col}");
        match view.get(row as usize, col as usize) {
            Some(cell) => s.done(&command, &[cell.word()]),
            None => s.refused(&command, 11),
        }
    }
}

/// Lists and stacked matrices that a view is refused on.
fn refusals(s: &mut Session) {
    for (l_skip, n_stack, list, words) in [
        (11, 0, vec![1, 0, 0], vec![7]),
        (0, 0, vec![1, 0, 2], vec![7]),
        (0, 0, vec![4_097, 0, 0], vec![7]),
        (1, 1, vec![1, 3, 0], vec![7; 4]),
        (0, 3, vec![1, 2, 0, 1, 3, 0], vec![7; 16]),
        (0, 2, vec![1, 0, 0, 1, 1, 0], vec![7; 4]),
        (0, 0, vec![1, 0, 0], vec![]),
        (0, 0, vec![1, 0, 0], vec![7, 7]),
        (0, 0, vec![1, 0, 0], vec![P]),
        (0, 0, vec![0, 0, 0], vec![]),
    ] {
        s.set_list(l_skip, n_stack, &list);
        s.set("matrix", &words);
        let number = scope::view(l_skip, n_stack, &list, 0, Some(&words));
        let number = number.expect_err("a refusal");
        s.refused("mat_shape 0", number);
        s.refused("mat_view 0", number);
    }
}

/// A view that is made of a slice; of no row now and then.
fn slice(s: &mut Session, rng: &mut Rng) {
    let (width, stride) = (rng.between(1, 4), 1 << rng.below(4));
    let height = if rng.once_in(8) { 0 } else { 1 << rng.below(4) };
    let words = rng.words((width * stride * height) as usize);
    let values = residues(&words);
    let view = StridedColMajorMatrixView::new(&values, width as usize, stride as usize);
    s.set("matrix", &words);
    s.done(&format!("new {width} {stride}"), &shown(&view));
    get(s, rng, &format!("new_cell {width} {stride}"), &view);
}
