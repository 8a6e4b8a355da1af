//! Random lists, shapes, stacked matrices and inputs of runs.
use crate::{
    field::{flat, words, EF},
    original::{self, Committed},
    rng::Rng,
    scope::RunInput,
    shape::{matrix, Matrix, Shape},
};

/// An accepted list with at least one column: falling heights, and here and there a matrix of width 0
/// of any height that the stacking call takes.
pub fn list(rng: &mut Rng, l_skip: u32, n_stack: u32, matrices: u32, width: u32) -> Vec<Matrix> {
    let top = l_skip + n_stack;
    let mut list: Vec<Matrix> = (0..rng.between(1, matrices))
        .map(|_| matrix(rng.between(1, width), rng.between(0, top), rng.below(2)))
        .collect();
    list.sort_by_key(|m| std::cmp::Reverse(m.log_height));
    while rng.once_in(4) {
        let at = rng.below(list.len() as u32 + 1) as usize;
        list.insert(at, matrix(0, rng.below(25), rng.below(2)));
    }
    list
}

pub fn cell_count(list: &[Matrix]) -> usize {
    list.iter()
        .map(|m| (m.width as usize) << m.log_height)
        .sum()
}

/// A shape of several commitments; the later ones have one matrix each, often of a height that the
/// first one has.
pub fn shape(rng: &mut Rng, l_skip: u32, n_stack: u32, commitments: u32, width: u32) -> Shape {
    let mut lists = vec![list(rng, l_skip, n_stack, 4, width)];
    for _ in 1..commitments {
        let log_height = if rng.once_in(2) {
            rng.pick(&lists[0]).log_height.min(l_skip + n_stack)
        } else {
            rng.between(0, l_skip + n_stack)
        };
        lists.push(vec![matrix(
            rng.between(1, width),
            log_height,
            rng.below(2),
        )]);
    }
    Shape::new(l_skip, n_stack, lists)
}

/// 257 to 800 matrices of one column or none in the first commitment, now and then in a run that the groups draw.
pub fn many_matrices(rng: &mut Rng) -> Option<Shape> {
    if !rng.once_in(500) {
        return None;
    }
    let (l_skip, n_stack, commitments) = (rng.below(4), rng.below(4), rng.between(1, 3));
    let mut shape = shape(rng, l_skip, n_stack, commitments, 2);
    let mut list: Vec<Matrix> = (0..rng.between(257, 800))
        .map(|_| matrix(rng.below(2), rng.below(l_skip + n_stack + 1), rng.below(2)))
        .collect();
    list.sort_by_key(|m| std::cmp::Reverse(m.log_height));
    shape.lists[0] = list;
    Some(shape)
}

/// The shape of a run that the original makes in milliseconds: every l_skip, at most 2^11 rows, here and there 16
/// commitments. Now and then it is longer: more than 256 points in a round, or long rows of more than 4,096 words; or
/// it has many matrices.
pub fn run_shape(rng: &mut Rng) -> Shape {
    if let Some(shape) = many_matrices(rng) {
        return shape;
    }
    let (l_skip, n_stack) = match rng.below(128) {
        0 => (rng.below(4), rng.between(9, 11)),
        1 => {
            let l_skip = rng.between(6, 10);
            (l_skip, rng.between(13, 15) - l_skip)
        }
        _ => {
            let l_skip = rng.below(11);
            (l_skip, rng.below((11 - l_skip).min(5) + 1))
        }
    };
    let commitments = match rng.below(32) {
        0 => 16,
        _ => rng.between(1, 4),
    };
    let width = rng.between(1, 3);
    shape(rng, l_skip, n_stack, commitments, width)
}

/// Stacked matrices of random cells, commitment after commitment, by the original's stacking.
pub fn stacked_matrices(rng: &mut Rng, shape: &Shape) -> Vec<u32> {
    shape
        .lists
        .iter()
        .flat_map(|list| {
            let cells = rng.words(cell_count(list));
            original::stacked(shape.l_skip, shape.n_stack, list, &cells)
        })
        .collect()
}

/// The same, or any words in their place: between and after the cells too, where weights are zero.
pub fn matrices(rng: &mut Rng, shape: &Shape, any_words: bool) -> Vec<u32> {
    if !any_words {
        return stacked_matrices(rng, shape);
    }
    rng.words(original::stack_columns(shape) * shape.height())
}

/// What a run and its verdict are given.
pub struct Case {
    pub committed: Committed,
    pub r: Vec<EF>,
    pub lambda: EF,
    /// u_0 to u_n_stack.
    pub u: Vec<EF>,
}

impl Case {
    pub fn new(rng: &mut Rng, shape: &Shape, any_words: bool) -> Self {
        let matrices = matrices(rng, shape, any_words);
        Self::on(rng, Committed::new(shape, &matrices))
    }

    /// On these stacked matrices.
    pub fn on(rng: &mut Rng, committed: Committed) -> Self {
        let rounds = committed.shape.n_stack as usize;
        Self {
            committed,
            r: rng.elements(rounds + 1),
            lambda: rng.element(),
            u: rng.elements(rounds + 1),
        }
    }

    pub fn shape(&self) -> &Shape {
        &self.committed.shape
    }

    /// Lambda, then u_0 to u_n_stack: the order in which the originals draw them.
    pub fn challenges(&self) -> Vec<EF> {
        [&[self.lambda][..], &self.u].concat()
    }

    /// What the calls of the run are given.
    pub fn by_words(&self) -> RunInput {
        RunInput {
            lists: self.shape().by_words(),
            r: flat(&self.r),
            lambda: words(self.lambda),
            matrices: self.committed.matrices(),
        }
    }
}
