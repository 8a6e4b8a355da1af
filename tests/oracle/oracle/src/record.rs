//! A column's record in a plan, as document 02 (C-14) packs it.

/// Most significant first: matrix 16 bits, column 12, stack column 12, starting row 24; in the second word
/// log height 5 bits, zeros below.
pub type Record = [u64; 2];

pub fn packed(matrix: u64, column: u64, stack_column: u64, row: u64, log_height: u64) -> Record {
    [
        matrix << 48 | column << 36 | stack_column << 24 | row,
        log_height << 59,
    ]
}

/// As it is printed: 32 hexadecimal digits, first word first.
pub fn digits([first, second]: Record) -> String {
    format!("{first:016x}{second:016x}")
}
