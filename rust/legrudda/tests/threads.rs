//! Any thread may call: what goes from one to another, runs beside each other, and how little stack a call needs.
use std::thread;

use legrudda::{
    layout::{self, Placed, Plan, Record, Slice, Unsorted},
    verdict, Asked, Element, Error, RoundPair, Run,
};

/// Compiled only if all of them are.
const fn sent_and_shared<T: Send + Sync>() {}
const _: () = {
    sent_and_shared::<Run>();
    sent_and_shared::<Asked>();
    sent_and_shared::<Element>();
    sent_and_shared::<Error>();
    sent_and_shared::<RoundPair>();
    sent_and_shared::<(Plan, Record, Placed, Slice, Unsorted)>();
};

const L_SKIP: u32 = 10;
const N_STACK: u32 = 2;
/// Long and short columns with rotations, and a commitment after the first.
const COUNTS: [u32; 2] = [2, 1];
const LISTS: [u32; 9] = [3, 12, 1, 2, 3, 1, 1, 11, 0];
const STACK_COLUMNS: usize = 5;

/// Words below p of a seed.
fn words(seed: u32, count: usize) -> Vec<u32> {
    let word = |i: u32| (i + seed).wrapping_mul(2_654_435_761) % legrudda::P;
    (0..count as u32).map(word).collect()
}

fn point(seed: u32, j: u32) -> Element {
    let words: [u32; 4] = words(seed + 4 * j, 4).try_into().unwrap();
    words.into()
}

/// All of a run, each call by `call`: first polynomial, pairs and openings, and the verdict over them and the claims.
fn reduction(seed: u32, call: fn(&mut (dyn FnMut() + Send))) -> (Vec<u32>, Result<(), Error>) {
    let r = words(seed, 4 * (N_STACK as usize + 1));
    let lambda = point(seed, 90);
    let matrices = words(seed, STACK_COLUMNS << (L_SKIP + N_STACK));
    let mut run = Run::new(L_SKIP, N_STACK, &COUNTS, &LISTS, &r, lambda);
    let (mut first, mut claims) = (vec![], vec![]);
    let (mut pairs, mut openings) = (vec![], vec![]);
    call(&mut || run.start().unwrap());
    call(&mut || first = run.first_polynomial(&matrices).unwrap());
    call(&mut || run.fold_ple_evals(&matrices, point(seed, 100)).unwrap());
    for round in 1..=N_STACK {
        call(&mut || {
            let pair = run.round_pair(round).unwrap();
            pairs.extend([pair.at_1.words, pair.at_2.words].concat());
        });
        call(&mut || run.fold_mle_evals(round, point(seed, 100 + round)).unwrap());
    }
    call(&mut || openings = run.openings().unwrap());
    call(&mut || claims = run.column_openings(&matrices).unwrap());
    let challenges = (0..=N_STACK).flat_map(|j| point(seed, 100 + j).words);
    let asked = Asked {
        l_skip: L_SKIP,
        n_stack: N_STACK,
        counts: &COUNTS,
        lists: &LISTS,
        r: &r,
        lambda,
        challenges: &challenges.collect::<Vec<_>>(),
        claims: &claims,
        coefficients: &first,
        pairs: &pairs,
        openings: &openings,
    };
    let mut observed = vec![0; asked.observed_len()];
    let mut judged = Ok(());
    call(&mut || judged = verdict(&asked, &mut observed));
    (observed, judged)
}

fn here(call: &mut (dyn FnMut() + Send)) {
    call();
}

/// On a thread of its own, whose stack is 96 KiB and 16 more for what the thread itself needs.
fn on_little_stack(call: &mut (dyn FnMut() + Send)) {
    thread::scope(|scope| {
        let thread = thread::Builder::new().stack_size((96 + 16) << 10);
        thread.spawn_scoped(scope, call).unwrap().join().unwrap();
    });
}

/// Honest batches, with a yes each.
#[test]
fn runs_beside_each_other() {
    let alone: Vec<_> = (0..4).map(|seed| reduction(seed, here)).collect();
    assert!(alone.iter().all(|(_, judged)| judged.is_ok()));
    let beside = thread::scope(|scope| {
        let threads: Vec<_> = (0..4)
            .map(|seed| scope.spawn(move || reduction(seed, here)))
            .collect();
        let joined = threads.into_iter().map(|thread| thread.join().unwrap());
        joined.collect::<Vec<_>>()
    });
    assert_eq!(alone, beside);
}

/// Each call of a run on another thread.
#[test]
fn calls_on_little_stack() {
    assert_eq!(reduction(7, on_little_stack), reduction(7, here));
}

/// The most matrices, in rising order.
#[test]
fn ordering_on_little_stack() {
    let list: Vec<u32> = (0..4096).flat_map(|i| [1, i / 256, 0]).collect();
    let mut planned = None;
    on_little_stack(&mut || planned = Some(layout::plan_unsorted(0, 15, &list)));
    assert_eq!(planned, Some(layout::plan_unsorted(0, 15, &list)));
    assert!(planned.unwrap().is_ok());
}
