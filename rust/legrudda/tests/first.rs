//! The first polynomial and the trace columns' openings on the stored session, and what links them to the rest of a run.
use batch::Session;
use legrudda::{field, layout, tables, verdict, Asked, Element, Error, Run, P};
use session::replay;

mod batch;
mod elements;
mod session;
mod shape;

#[test]
fn stored_first_polynomials() {
    let mut session = Session::default();
    let replayed = replay("first", |name, numbers| session.reply(name, numbers));
    assert_eq!(replayed, 474);
    let by_number = [0, 4, 2, 0, 2, 2, 2, 4, 10, 15, 11, 0, 0, 0, 0];
    assert_eq!((session.refused, session.accepted), (by_number, 1));
}

/// The sum over the skip subgroup: 2^l_skip times the coefficients of the powers that 2^l_skip divides.
fn subgroup_sum(l_skip: u32, coefficients: &[u32]) -> Element {
    let order = 1 << l_skip;
    let sum = field::load(coefficients, 0) + field::load(coefficients, order);
    field::scale(sum, order as u32)
}

/// From traces to the verdict: two matrices of short columns and one of long ones, flagged and not.
#[test]
fn an_honest_batch() {
    let (l_skip, n_stack, counts) = (2, 2, [3]);
    let lists = [1, 4, 1, 2, 1, 1, 1, 0, 0];
    let traces = [1, 16, 1, 2, 2, 1, 1, 1, 0];
    let cells: Vec<u32> = (0..21u32)
        .map(|i| i.wrapping_mul(2_654_435_761) % P)
        .collect();
    let room = legrudda::room(l_skip, n_stack, &counts, &lists).unwrap();
    let mut stacked = vec![0; room.matrices];
    layout::stacked_matrix(l_skip, n_stack, &traces, &cells, &mut stacked).unwrap();

    let r: Vec<u32> = (1..=12u32).map(|i| i.wrapping_mul(40_503) % P).collect();
    let lambda = Element::from([9, 8, 7, 6]);
    let u = [[3, 1, 4, 1], [5, 9, 2, 6], [5, 3, 5, 8]].map(Element::from);
    let mut run = Run::new(l_skip, n_stack, &counts, &lists, &r, lambda);
    run.start().unwrap();
    let first = run.first_polynomial(&stacked).unwrap();
    assert_eq!((first.len(), run.turn()), (room.coefficients, 2));
    run.fold_ple_evals(&stacked, u[0]).unwrap();
    let mut pairs = vec![];
    for round in 1..=n_stack {
        let pair = run.round_pair(round).unwrap();
        pairs.extend([pair.at_1.words, pair.at_2.words].concat());
        run.fold_mle_evals(round, u[round as usize]).unwrap();
    }
    let openings = run.openings().unwrap();
    let claims = run.column_openings(&stacked).unwrap();
    assert_eq!(claims.len(), room.claims);

    let challenges = u.map(|u| u.words).concat();
    let honest = Asked {
        l_skip,
        n_stack,
        counts: &counts,
        lists: &lists,
        r: &r,
        lambda,
        challenges: &challenges,
        claims: &claims,
        coefficients: &first,
        pairs: &pairs,
        openings: &openings,
    };
    let mut observed = vec![0; room.observed];
    assert_eq!(verdict(&honest, &mut observed), Ok(()));

    // A claim one off is 13, with the sum over the subgroup; with the first polynomial one off as well it is 14.
    let one_off = |words: &[u32], by: Element| {
        let mut words = words.to_vec();
        let changed = field::load(&words, 0) + by;
        field::store(&mut words, 0, changed);
        words
    };
    let claims = one_off(&claims, Element::ONE);
    let wrong = Asked {
        claims: &claims,
        ..honest
    };
    let Err(Error::S0Mismatch { s_0_sum_eval, .. }) = verdict(&wrong, &mut observed) else {
        panic!("a claim one off is 13");
    };
    assert_eq!(s_0_sum_eval, subgroup_sum(l_skip, &first));
    let quarter = field::halve(field::halve(Element::ONE));
    let wrong_first = one_off(&first, quarter);
    let value = tables::horner_eval(&wrong_first, u[0]);
    assert_eq!(value, tables::horner_eval(&first, u[0]) + quarter);
    let wrong = Asked {
        coefficients: &wrong_first,
        ..wrong
    };
    let judged = verdict(&wrong, &mut observed);
    assert!(matches!(judged, Err(Error::FinalSumMismatch { .. })));
}
