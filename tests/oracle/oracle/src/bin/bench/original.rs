//! The original Rust's times.
use oracle::{
    clock::timed,
    original::{Run, Sent},
    random::Case,
};

use crate::{Returned, Times};

/// What an honest run sends.
pub fn sent(case: &Case) -> Sent {
    let (_, returned) = run(case, true);
    Sent {
        claims: case.committed.claims(&case.r),
        first: returned.first,
        pairs: returned.pairs,
        openings: returned.openings,
    }
}

/// All calls; the first polynomial, which takes longer than the others together, where it is asked for.
pub fn run(case: &Case, with_first: bool) -> (Times, Returned) {
    let (mut run, start) = timed(|| Run::start(&case.committed, &case.r, case.lambda));
    let (coefficients, first) = timed(|| match with_first {
        true => run.first_polynomial(),
        false => vec![],
    });
    let ((), fold_at_u_0) = timed(|| run.fold_at_u_0(case.u[0]));
    let (mut pairs, mut folds) = (0.0, 0.0);
    let mut returned = vec![];
    for (round, u) in case.u.iter().enumerate().skip(1) {
        let (pair, seconds) = timed(|| run.pair(round));
        returned.push(pair);
        pairs += seconds;
        folds += timed(|| run.fold(round, *u)).1;
    }
    let (values, openings) = timed(|| run.openings());
    let times = Times {
        start,
        first,
        fold_at_u_0,
        pairs,
        folds,
        openings,
    };
    let returned = Returned {
        first: coefficients,
        pairs: returned,
        openings: values,
    };
    (times, returned)
}
