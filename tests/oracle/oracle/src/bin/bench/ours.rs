//! The same run through the linked library; its words must be the original's.
use oracle::{
    clock::timed,
    field::{flat, words, PrimeCharacteristicRing, EF},
    library::{Library, RunLent},
    ours::Ours,
    random::Case,
    scope::Call,
};

use crate::{Returned, Times};

/// Planning and checks are in every call's time. The first polynomial is compared where the original has made its own.
pub fn run(case: &Case, returned: &Returned) -> Times {
    let input = case.by_words();
    let stack_columns = case.committed.width();
    let mut work = case
        .shape()
        .room(stack_columns)
        .map(|length| vec![0; length]);
    let mut coefficients = vec![0; 4 * input.lists.coefficient_count()];
    let mut values = vec![0; 4 * stack_columns];
    let mut turn = 0;
    let mut call = |call, challenge| {
        let lent = RunLent {
            input: &input,
            challenge: words(challenge),
            work: work.each_mut().map(Vec::as_mut_slice),
            coefficients: &mut coefficients,
            openings: &mut values,
        };
        let (answer, seconds) = timed(|| Ours.run_call(turn, call, lent));
        assert_eq!(answer.number, 0);
        turn = answer.turn;
        (answer.pair, seconds)
    };
    let (_, start) = call(Call::Start, EF::ZERO);
    let (_, first) = call(Call::First, EF::ZERO);
    let (_, fold_at_u_0) = call(Call::FoldAtU0, case.u[0]);
    let (mut pairs, mut folds) = (0.0, 0.0);
    for ((round, u), honest) in (1..).zip(&case.u[1..]).zip(&returned.pairs) {
        let (pair, seconds) = call(Call::Pair(round), EF::ZERO);
        assert_eq!(pair, honest.map(words));
        pairs += seconds;
        folds += call(Call::Fold(round), *u).1;
    }
    let (_, openings) = call(Call::Openings, EF::ZERO);
    assert_eq!(values, flat(&returned.openings));
    assert!(returned.first.is_empty() || coefficients == flat(&returned.first));
    Times {
        start,
        first,
        fold_at_u_0,
        pairs,
        folds,
        openings,
    }
}
