//! Lists of matrices as document 01 writes them.
use std::fmt::{Display, Formatter, Result};

use crate::scope::Lists;

/// Three u32: width, log height, rotation flag.
#[derive(Clone, Copy, Debug, PartialEq, Eq)]
pub struct Matrix {
    pub width: u32,
    pub log_height: u32,
    pub flag: u32,
}

pub const fn matrix(width: u32, log_height: u32, flag: u32) -> Matrix {
    Matrix {
        width,
        log_height,
        flag,
    }
}

/// l_skip, n_stack and the lists of all commitments.
#[derive(Clone, Debug)]
pub struct Shape {
    pub l_skip: u32,
    pub n_stack: u32,
    pub lists: Vec<Vec<Matrix>>,
}

impl Shape {
    pub fn new(l_skip: u32, n_stack: u32, lists: Vec<Vec<Matrix>>) -> Self {
        Self {
            l_skip,
            n_stack,
            lists,
        }
    }

    /// H.
    pub fn height(&self) -> usize {
        1 << (self.l_skip + self.n_stack)
    }

    /// Of lists that were accepted.
    pub fn of_words(lists: &Lists) -> Self {
        let mut left = matrices(&lists.words).into_iter();
        let dealt = |count: &u32| left.by_ref().take(*count as usize).collect();
        let dealt = lists.counts.iter().map(dealt).collect();
        Self::new(lists.l_skip, lists.n_stack, dealt)
    }

    pub fn by_words(&self) -> Lists {
        Lists {
            l_skip: self.l_skip,
            n_stack: self.n_stack,
            counts: self.lists.iter().map(|list| list.len() as u32).collect(),
            words: self.lists.iter().flat_map(|list| triples(list)).collect(),
        }
    }

    /// Whether the matrices of a commitment are flagged, as the originals take it.
    pub fn flags(&self) -> Vec<Vec<bool>> {
        let flags = |list: &Vec<Matrix>| list.iter().map(|m| m.flag == 1).collect();
        self.lists.iter().map(flags).collect()
    }

    /// The matrix of each column, in order.
    pub fn columns(&self) -> impl Iterator<Item = &Matrix> {
        let matrices = self.lists.iter().flatten();
        matrices.flat_map(|m: &Matrix| std::iter::repeat_n(m, m.width as usize))
    }

    /// The distinct log heights of columns, ascending: the slots of the tables.
    pub fn log_heights(&self) -> Vec<u32> {
        let mut heights: Vec<u32> = self.columns().map(|m| m.log_height).collect();
        heights.sort();
        heights.dedup();
        heights
    }

    pub fn n_lift(&self, log_height: u32) -> u32 {
        log_height.saturating_sub(self.l_skip)
    }

    /// Words of q_evals, eq_r, k_rot_r and eq_ub, for so many stack columns.
    pub fn room(&self, stack_columns: usize) -> [usize; 4] {
        let tables = self.log_heights().into_iter().map(|h| 4 << self.n_lift(h));
        let tables = tables.sum();
        let values = (stack_columns * 4) << self.n_stack;
        [values, tables, tables, 4 * self.columns().count()]
    }
}

impl Display for Shape {
    fn fmt(&self, f: &mut Formatter) -> Result {
        write!(
            f,
            "l_skip {}, n_stack {}, {} commitments, {} columns",
            self.l_skip,
            self.n_stack,
            self.lists.len(),
            self.columns().count()
        )
    }
}

/// The matrices of whole triples.
pub fn matrices(list: &[u32]) -> Vec<Matrix> {
    list.chunks_exact(3)
        .map(|t| matrix(t[0], t[1], t[2]))
        .collect()
}

pub fn triples(list: &[Matrix]) -> Vec<u32> {
    list.iter()
        .flat_map(|m| [m.width, m.log_height, m.flag])
        .collect()
}

/// The same list for the stacking call, which takes heights.
pub fn triples_with_heights(list: &[Matrix]) -> Vec<u32> {
    list.iter()
        .flat_map(|m| [m.width, 1 << m.log_height, m.flag])
        .collect()
}
