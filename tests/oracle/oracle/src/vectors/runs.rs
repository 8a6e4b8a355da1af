//! Whole runs: every call, and the work buffers after it.
use super::{
    many, run_refusals,
    session::{with_words, Origin, Session},
};
use crate::{
    field::{constant, flat, words, PrimeCharacteristicRing, TwoAdicField, EF, F},
    original::{self, Committed, PeekedRun, Run},
    random::Case,
    rng::Rng,
    shape::{matrix, Shape},
    sums::SummedRun,
};

/// How the work buffers of a shape get their lengths.
pub type Room = fn(&mut Session, &Shape);

pub fn session(cases: &[Case]) -> Session {
    of_cases("runs", cases, 10, Session::room)
}

/// The same runs for the program that makes every call by a method, those of a long first polynomial left out.
pub fn by_methods(cases: &[Case]) -> Session {
    let mut s = of_cases("turns", cases, 6, Session::lengths);
    many::by_turn(&mut s);
    s
}

/// Up to an l_skip.
fn of_cases(name: &'static str, cases: &[Case], most: u32, room: Room) -> Session {
    let mut s = Session::new(name);
    run_refusals::before_start(&mut s);
    checked_folds(&mut s, room);
    for (index, case) in cases.iter().enumerate() {
        if case.shape().l_skip <= most {
            run(&mut s, case, index, room);
        }
    }
    at_powers(&mut s, most, room);
    s
}

/// Document 02, C-13: for every l_skip at 1, at a row of the short column and at any other power of the skip subgroup's
/// generator. The original divides by zero there, so pairs, openings and buffers are those of document 01's sums.
fn at_powers(s: &mut Session, most: u32, room: Room) {
    for l_skip in 0..=most {
        let mut rng = Rng::of_case(0xC13, l_skip as u64);
        let short = l_skip.saturating_sub(1).min(2);
        let (n_stack, tall) = match l_skip {
            0..=3 => (2, vec![matrix(1, l_skip + 1, 1), matrix(1, l_skip, 0)]),
            _ => (1, vec![]),
        };
        let list = [tall, vec![matrix(1, short, 1), matrix(1, 0, 0)]].concat();
        let shape = Shape::new(l_skip, n_stack, vec![list]);
        let own = rng.below(1 << short) << (l_skip - short);
        for power in [0, own, rng.below(1 << l_skip)] {
            let case = Case::new(&mut rng, &shape, false);
            let root = F::two_adic_generator(l_skip as usize).exp_u64(power as u64);
            s.remark(&format!("u_0 is power {power}: {shape}"));
            run_by_sums(s, &case, root.into(), room);
        }
    }
}

fn run_by_sums(s: &mut Session, case: &Case, u_0: EF, room: Room) {
    let mut run = SummedRun::start(&case.committed, &case.r, case.lambda);
    set_inputs(s, &case.committed, &case.r, case.lambda, room);
    s.set("start", &[]);
    first(s, &case.committed, &case.r, case.lambda);
    let summed = |s: &mut Session, command: &str, words: &[u32]| {
        s.ask(Origin::Sums, command, &with_words("ok", words));
    };
    s.set("fold0", &words(u_0));
    run.fold_at_u_0(u_0);
    summed(s, "work", &run.work_buffers().concat());
    for (round, u) in (1..).zip(&case.u[1..]) {
        summed(s, &format!("pair {round}"), &flat(&run.pair()));
        s.set(&format!("fold {round}"), &words(*u));
        run.fold(*u);
        summed(s, "work", &run.work_buffers().concat());
    }
    summed(s, "openings", &flat(&run.openings()));
}

/// Rows 5, 6 fold at u_0 = 3 to 4; values 4, 10 fold at 2 to 16.
fn checked_folds(s: &mut Session, room: Room) {
    for (shape, rows, opening) in [
        (Shape::new(1, 0, vec![vec![matrix(1, 1, 0)]]), [5, 6], 4),
        (Shape::new(0, 1, vec![vec![matrix(1, 1, 0)]]), [4, 10], 16),
    ] {
        let r = [constant(7), constant(8)];
        let r = &r[..=shape.n_stack as usize];
        let committed = Committed::new(&shape, &rows);
        let mut run = PeekedRun::start(&committed, r, constant(5));
        set_inputs(s, &committed, r, constant(5), room);
        s.set("start", &[]);
        first(s, &committed, r, constant(5));
        s.set("fold0", &[3, 0, 0, 0]);
        run.fold_at_u_0(constant(3));
        for round in 1..=shape.n_stack as usize {
            s.done(&format!("pair {round}"), &flat(&run.pair(round)));
            s.set(&format!("fold {round}"), &[2, 0, 0, 0]);
            run.fold(round, constant(2));
        }
        assert_eq!(run.openings(), [constant(opening)]);
        let answer = format!("ok {opening} 0 0 0");
        s.ask(Origin::Document, "openings", &answer);
    }
}

pub fn set_inputs(s: &mut Session, committed: &Committed, r: &[EF], lambda: EF, room: Room) {
    s.set_shape(&committed.shape);
    s.set("matrix", &committed.matrices());
    s.set("point", &flat(r));
    s.set("lambda", &words(lambda));
    room(s, &committed.shape);
}

fn run(s: &mut Session, case: &Case, index: usize, room: Room) {
    let shape = case.shape();
    let (proof, _) = original::prove(&case.committed, &case.r, &case.challenges());
    let mut run = PeekedRun::start(&case.committed, &case.r, case.lambda);

    s.remark(&format!("run {index}: {shape}"));
    set_inputs(s, &case.committed, &case.r, case.lambda, room);

    s.set("start", &[]);
    work(s, &run);
    assert_eq!(run.first_polynomial(), proof.univariate_round_coeffs);
    s.done("round0", &flat(&proof.univariate_round_coeffs));
    run_refusals::after_first(s, case, &run);
    if case.committed.width() < 3 {
        work(s, &run);
    }

    s.set("fold0", &words(case.u[0]));
    run.fold_at_u_0(case.u[0]);
    work(s, &run);
    for round in 1..=shape.n_stack as usize {
        s.refused(&format!("pair {}", round + 1), 8);
        let pair = run.pair(round);
        assert_eq!(pair, proof.sumcheck_round_polys[round - 1]);
        s.done(&format!("pair {round}"), &flat(&pair));
        s.refused(&format!("pair {round}"), 8);
        s.set(&format!("fold {round}"), &words(case.u[round]));
        run.fold(round, case.u[round]);
        work(s, &run);
    }
    let openings = run.openings();
    assert_eq!(openings, proof.stacking_openings.concat());
    s.done("openings", &flat(&openings));
    s.refused("openings", 8);
}

/// The first polynomial of a run.
pub fn first(s: &mut Session, committed: &Committed, r: &[EF], lambda: EF) {
    let coefficients = Run::start(committed, r, lambda).first_polynomial();
    s.done("round0", &flat(&coefficients));
}

pub fn work(s: &mut Session, run: &PeekedRun) {
    s.done("work", &run.work_buffers().concat());
}
