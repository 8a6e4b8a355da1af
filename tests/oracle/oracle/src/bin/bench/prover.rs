//! A whole run by both sides, on the same input.
use oracle::random::Case;

use crate::{original, ours, Line, Times};

/// Each side plays the run this often, in turn; its shortest time counts.
const RUNS: usize = 21;

/// So many of these with the original's first polynomial.
const WITH_FIRST: usize = 5;

/// prover L N COLUMNS ours SECONDS rust SECONDS ratio R
/// `prover` is a run without its first polynomial, `round0` the first polynomial alone, `whole` a run with it.
pub fn print(case: &Case) {
    let [mut prover, mut round0, mut whole] = ["prover", "round0", "whole"].map(Line::new);
    for run in 0..RUNS {
        let with_first = run < WITH_FIRST;
        let (rust, returned) = original::run(case, with_first);
        let ours = ours::run(case, &returned);
        let both = |part: fn(&Times) -> f64| [part(&ours), part(&rust)];
        prover.shortest(both(Times::later));
        if with_first {
            round0.shortest(both(|times| times.first));
            whole.shortest(both(Times::run));
        }
    }
    for line in [prover, round0, whole] {
        line.print(case);
    }
}
