//! One commitment's list: 1, 2, 4, 5 and 6, and the places of its columns.
use super::{refuse_if, Answer};
use crate::record::{packed, Record};

pub const MAX_L_SKIP: u32 = 10;
pub const MAX_N_STACK: u32 = 20;
pub const MAX_LOG_H: u32 = 24;
/// Document 02, C-14.
pub const MAX_MATRICES: usize = 4_096;
pub const MAX_COLUMNS: u64 = 4_096;

/// Width, log height (in the stacking call: height) and rotation flag of a matrix.
#[derive(Clone, Copy)]
pub struct Triple {
    pub width: u32,
    pub height: u32,
    pub flag: u32,
}

/// The whole triples that are there.
pub fn triples(list: &[u32]) -> Vec<Triple> {
    list.chunks_exact(3)
        .map(|t| Triple {
            width: t[0],
            height: t[1],
            flag: t[2],
        })
        .collect()
}

/// Where a column stands in the stacked matrix.
#[derive(Clone, Copy, Debug, PartialEq, Eq)]
pub struct Place {
    pub matrix: usize,
    pub column: u32,
    pub stack_column: u64,
    pub row: u64,
    pub log_height: u32,
}

impl Place {
    pub fn record(&self) -> Record {
        let (matrix, column, log_height) = (
            self.matrix as u64,
            self.column as u64,
            self.log_height as u64,
        );
        packed(matrix, column, self.stack_column, self.row, log_height)
    }
}

/// Opened stack columns, H, and the columns' places in order.
#[derive(Clone, Debug, PartialEq, Eq)]
pub struct Plan {
    pub width: u64,
    pub height: u64,
    pub places: Vec<Place>,
}

pub fn check_sizes(l_skip: u32, n_stack: u32) -> Answer<()> {
    let within = l_skip <= MAX_L_SKIP
        && n_stack <= MAX_N_STACK
        && l_skip as u64 + n_stack as u64 <= MAX_LOG_H as u64;
    refuse_if(!within, 1)
}

pub fn check_matrices(list: &[Triple]) -> Answer<()> {
    refuse_if(
        list.len() > MAX_MATRICES || list.iter().any(|t| t.flag > 1),
        1,
    )
}

pub fn check_columns(list: &[Triple]) -> Answer<()> {
    let columns: u64 = list.iter().map(|t| t.width as u64).sum();
    refuse_if(columns > MAX_COLUMNS, 2)
}

/// The walk: 4 at a matrix that is taller than H, 5 at a column that does not fit the rows left.
/// A matrix of width 0 places nothing and its height is not looked at. The next stack column opens
/// when a column is to be placed at a row exactly H, and the first one likewise.
pub fn walk(l_skip: u32, n_stack: u32, list: &[Triple]) -> Answer<Plan> {
    let height = 1u64 << (l_skip + n_stack);
    let mut plan = Plan {
        width: 0,
        height,
        places: vec![],
    };
    let mut row = height;
    for (matrix, t) in list.iter().enumerate().filter(|(_, t)| t.width > 0) {
        refuse_if(t.height > l_skip + n_stack, 4)?;
        let rows = (1u64 << t.height).max(1 << l_skip);
        for column in 0..t.width {
            if row == height {
                plan.width += 1;
                row = 0;
            }
            refuse_if(row + rows > height, 5)?;
            plan.places.push(Place {
                matrix,
                column,
                stack_column: plan.width - 1,
                row,
                log_height: t.height,
            });
            row += rows;
        }
    }
    Ok(plan)
}

/// 6 if log heights rise, matrices of width 0 skipped.
pub fn check_falling(list: &[Triple]) -> Answer<()> {
    let heights: Vec<u32> = list
        .iter()
        .filter(|t| t.width > 0)
        .map(|t| t.height)
        .collect();
    refuse_if(heights.windows(2).any(|pair| pair[0] < pair[1]), 6)
}
