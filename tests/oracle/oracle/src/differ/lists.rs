//! Lists of one commitment: good ones, ones at the limits, and damaged copies.
use crate::{
    random,
    rng::Rng,
    scope::{MAX_COLUMNS, MAX_MATRICES, MAX_N_STACK},
    shape::{matrices, triples, Matrix},
};

#[derive(Clone, Debug)]
pub struct Drawn {
    pub l_skip: u32,
    pub n_stack: u32,
    /// Three words a matrix, log heights.
    pub list: Vec<u32>,
}

impl Drawn {
    /// The whole triples.
    pub fn matrices(&self) -> Vec<Matrix> {
        matrices(&self.list)
    }

    pub fn columns(&self) -> u64 {
        self.matrices().iter().map(|m| m.width as u64).sum()
    }
}

/// For planning, which touches no cells: any sizes, up to the limits of matrices and columns.
pub fn for_planning(rng: &mut Rng) -> Drawn {
    let l_skip = rng.below(11);
    let n_stack = rng.below((24 - l_skip).min(20) + 1);
    let (matrices, width) = match rng.below(64) {
        0 => (MAX_MATRICES as u32, 1),
        1..=7 => (256, 3),
        8..=15 => (40, 100),
        _ => (5, 4),
    };
    let mut list = random::list(rng, l_skip, n_stack, matrices, width);
    if rng.once_in(16) {
        fill_to(rng, &mut list);
    }
    if rng.once_in(64) {
        lengthen(rng, &mut list);
    }
    damaged(rng, l_skip, n_stack, triples(&list))
}

/// The matrices in another order, words past the last triple behind them. Here and there few heights
/// recur or widths are 0; a matrix of width 0 often has any word as its log height.
pub fn in_whatever_order(rng: &mut Rng, drawn: &Drawn) -> Drawn {
    let mut matrices = drawn.matrices();
    let past = &drawn.list[3 * matrices.len()..];
    let top = drawn.l_skip.saturating_add(drawn.n_stack).min(30);
    if rng.once_in(2) {
        let few = [(); 3].map(|()| rng.below(top + 1));
        let fit = matrices.iter_mut().filter(|m| m.log_height <= top);
        fit.for_each(|m| m.log_height = rng.pick(&few));
    }
    if rng.once_in(4) {
        let some = matrices.iter_mut().filter(|_| rng.once_in(4));
        some.for_each(|m| m.width = 0);
    }
    for m in matrices.iter_mut().filter(|m| m.width == 0) {
        if rng.once_in(2) {
            m.log_height = rng.edge_word();
        }
    }
    match rng.below(8) {
        0 => {}
        1 => matrices.reverse(),
        _ => rng.shuffle(&mut matrices),
    }
    let mut list = triples(&matrices);
    list.extend(past);
    Drawn { list, ..*drawn }
}

/// Words of the slice for the records: two a column, now and then some more or less, or one a column.
pub fn words_for_records(rng: &mut Rng, drawn: &Drawn) -> usize {
    let columns = drawn.columns().min(MAX_COLUMNS + 2) as usize;
    match rng.below(8) {
        0 => rng.pick(&[
            columns,
            (2 * columns).saturating_sub(2),
            (2 * columns).saturating_sub(1),
            2 * columns + 1,
            2 * columns + 2,
        ]),
        _ => 2 * columns,
    }
}

/// For stacking: at most 2^12 rows a stack column, or sizes that are refused.
pub fn for_stacking(rng: &mut Rng) -> Drawn {
    let l_skip = rng.below(11);
    let n_stack = rng.below(12 - l_skip + 1).min(5);
    let list = random::list(rng, l_skip, n_stack, 4, 4);
    let mut drawn = damaged(rng, l_skip, n_stack, triples(&list));
    if drawn.l_skip.saturating_add(drawn.n_stack) > 12 {
        drawn.n_stack = MAX_N_STACK + 1;
    }
    drawn
}

/// Widens one matrix so that the columns come to about the limit.
fn fill_to(rng: &mut Rng, list: &mut [Matrix]) {
    let columns: u32 = list.iter().map(|m| m.width).sum();
    let limit = MAX_COLUMNS as u32 + rng.below(3) - 1;
    let at = rng.below(list.len() as u32) as usize;
    list[at].width += limit.saturating_sub(columns);
}

/// Repeats the last matrix so that there are about as many as the limit, none of more than one column.
fn lengthen(rng: &mut Rng, list: &mut Vec<Matrix>) {
    let last = list[list.len() - 1];
    list.resize(MAX_MATRICES + rng.below(3) as usize - 1, last);
    list.iter_mut().for_each(|m| m.width = m.width.min(1));
}

/// In half of the cases one or two faults.
fn damaged(rng: &mut Rng, l_skip: u32, n_stack: u32, list: Vec<u32>) -> Drawn {
    let mut drawn = Drawn {
        l_skip,
        n_stack,
        list,
    };
    if rng.once_in(2) {
        for _ in 0..rng.between(1, 2) {
            damage(rng, &mut drawn);
        }
    }
    drawn
}

fn damage(rng: &mut Rng, drawn: &mut Drawn) {
    let matrices = drawn.list.len() as u32 / 3;
    let top = drawn.l_skip.saturating_add(drawn.n_stack);
    let at = 3 * rng.below(matrices.max(1)) as usize;
    match rng.below(16) {
        0 => drawn.l_skip = rng.pick(&[11, 12, 25, 32, u32::MAX]),
        1 => drawn.n_stack = rng.pick(&[15, 21, 25, 32, u32::MAX]),
        2 => drawn.list.truncate(drawn.list.len().saturating_sub(1)),
        3 => drawn.list.push(rng.below(3)),
        4 => drawn.list.clear(),
        5 => drawn.list.resize(3 * rng.between(4_094, 4_097) as usize, 0),
        _ if matrices == 0 => {}
        6 => drawn.list[at] = rng.pick(&[4_095, 4_096, 4_097, u32::MAX, 1 << 31]),
        7 => drawn.list[at + 2] = rng.pick(&[2, 3, u32::MAX]),
        8 | 9 => drawn.list[at] = 0,
        10 => drawn.list[at + 1] = rng.pick(&[top.saturating_add(1), 25, 31, 32, 64, u32::MAX]),
        // Another height somewhere: mostly 5 or 6.
        _ => drawn.list[at + 1] = rng.below(top.min(30) + 1),
    }
}

#[cfg(test)]
mod tests {
    use super::*;
    use crate::scope;

    /// Lists of the first two thousand cases of the driver's seed.
    #[test]
    fn the_limit_of_matrices_is_met() {
        // Matrices, columns and the number.
        let drawn = |case| {
            let drawn = for_planning(&mut Rng::of_case(1, case));
            let columns = drawn.columns();
            let (l_skip, n_stack, list) = (drawn.l_skip, drawn.n_stack, &drawn.list);
            let plan = scope::planning(l_skip, n_stack, list, 2 * columns as usize);
            (list.len() / 3, columns, plan.err().unwrap_or(0))
        };
        let lists: Vec<_> = (0..2_000).map(drawn).collect();
        let (most, more) = (MAX_MATRICES, MAX_MATRICES + 1);
        assert!(lists.contains(&(most, MAX_COLUMNS, 0)));
        assert!(lists.contains(&(more, MAX_COLUMNS + 1, 1)));
        assert!(lists.iter().any(|l| l.0 > most && l.1 < 256 && l.2 == 1));
        let between = |l: &&(usize, u64, u32)| 256 < l.0 && l.0 < most && l.1 > 256;
        for number in [0, 6] {
            assert!(lists.iter().filter(between).any(|l| l.2 == number));
        }
    }
}
