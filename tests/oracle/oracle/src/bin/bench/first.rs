//! The calls of round zero by themselves: the first polynomial of a short batch, and the trace columns' openings.
use std::hint::black_box;

use oracle::{
    clock::{timed, timed_often},
    field::flat,
    library::{Library, RunLent},
    original::Run,
    ours::Ours,
    random::Case,
    rng::Rng,
    scope::Call,
    shape::{matrix, Shape},
};

use crate::Line;

/// Each side is timed this often, in turn; its shortest time counts.
const RUNS: usize = 5;

/// The turn of the first polynomial.
const DUE: u32 = 1;

/// openings L N COLUMNS ours SECONDS rust SECONDS ratio R
/// `rust` is a `Ple` and its value at r for each claim.
pub fn print_openings(case: &Case) {
    let input = case.by_words();
    let mut claims = vec![0; 4 * input.lists.claim_count()];
    let mut line = Line::new("openings");
    for _ in 0..RUNS {
        let (number, ours) = timed(|| Ours.column_openings(&input, &mut claims));
        let (honest, rust) = timed(|| case.committed.claims(&case.r));
        assert_eq!(number, 0);
        assert_eq!(claims, flat(&honest));
        line.shortest([ours, rust]);
    }
    line.print(case);
}

/// Batches of one flagged column: of one cell, of one block and of 64 blocks at l_skip 0, 4 and 10, and of one cell between
/// 1,023 other words.
const ONE_COLUMN: [(u32, u32, u32); 8] = [
    (0, 0, 0),
    (0, 6, 6),
    (4, 0, 0),
    (4, 0, 4),
    (4, 6, 10),
    (10, 0, 0),
    (10, 0, 10),
    (10, 6, 16),
];

/// round0 L N 1 ours SECONDS rust SECONDS ratio R, for each of these.
pub fn print_one_column() {
    for (l_skip, n_stack, log) in ONE_COLUMN {
        one_column(l_skip, n_stack, log);
    }
}

fn one_column(l_skip: u32, n_stack: u32, log: u32) {
    let shape = Shape::new(l_skip, n_stack, vec![vec![matrix(1, log, 1)]]);
    let case = Case::new(&mut Rng::new(9), &shape, false);
    let input = case.by_words();
    let mut coefficients = vec![0; 4 * input.lists.coefficient_count()];
    let mut line = Line::new("round0");
    let mut run = Run::start(&case.committed, &case.r, case.lambda);
    for _ in 0..RUNS {
        let ours = timed_often(|| {
            let lent = RunLent {
                input: &input,
                challenge: [0; 4],
                work: [&mut [], &mut [], &mut [], &mut []],
                coefficients: &mut coefficients,
                openings: &mut [],
            };
            assert_eq!(Ours.run_call(DUE, Call::First, lent).number, 0);
        });
        let rust = timed_often(|| {
            black_box(run.first_polynomial());
        });
        line.shortest([ours, rust]);
    }
    assert_eq!(coefficients, flat(&run.first_polynomial()));
    line.print(&case);
}
