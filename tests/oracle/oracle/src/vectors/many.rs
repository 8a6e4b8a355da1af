//! Document 02, C-14: every call that takes a list at 4,096 matrices and at 4,097, and whole runs past 256.
use super::{
    plans, runs,
    session::{Session, FIRST_COMMITMENT},
    stacking,
    verdicts::{self, Given},
    views,
};
use crate::{
    field::{constant, flat, words, PrimeCharacteristicRing, EF},
    original::{self, Committed, PeekedRun},
    random::{self, Case},
    rng::Rng,
    scope::{self, MAX_MATRICES},
    shape::{matrix, triples, Matrix, Shape},
};

pub fn session() -> Session {
    let mut s = Session::new("many");
    let rng = &mut Rng::new(0xC14);
    let list = falling(&[(5, 4), (4, 8), (3, 16), (2, 68), (1, 1_000), (0, 3_000)]);
    assert_eq!(list.len(), MAX_MATRICES);
    s.remark("4,096 matrices");
    one_commitment(&mut s, rng, &list);
    let later = (1..16).map(|i| vec![matrix(1, i % 6, i % 2)]);
    let lists = [vec![list.clone()], later.collect()].concat();
    let case = small_case(rng, Shape::new(L_SKIP, N_STACK, lists));
    run_and_verdict(&mut s, &case, &[Work::AfterStart]);
    s.remark("4,097 matrices");
    refused(&mut s, one_more(list));

    s.remark("700 matrices");
    let heights = [
        (6, 2),
        (5, 4),
        (4, 10),
        (3, 34),
        (2, 150),
        (1, 200),
        (0, 300),
    ];
    let later = [vec![matrix(2, 4, 1)], vec![matrix(3, 1, 0)]];
    let lists = [vec![falling(&heights)], later.to_vec()].concat();
    let case = Case::new(rng, &Shape::new(2, 4, lists), true);
    run_and_verdict(&mut s, &case, &[Work::AfterStart, Work::AfterLastFold]);
    s
}

const L_SKIP: u32 = 1;
const N_STACK: u32 = 4;

/// Matrices of one column, so many of each log height, every third flagged.
fn falling(heights: &[(u32, usize)]) -> Vec<Matrix> {
    let logs = heights
        .iter()
        .flat_map(|(log_height, count)| vec![*log_height; *count]);
    (0..)
        .zip(logs)
        .map(|(i, log_height)| matrix(1, log_height, u32::from(i % 3 == 0)))
        .collect()
}

/// Small, to keep the file so.
fn small_cells(rng: &mut Rng, list: &[Matrix]) -> Vec<u32> {
    let count = random::cell_count(list);
    (0..count).map(|_| rng.below(1_000)).collect()
}

/// Cells of small words, and an r of constants, at which the claims are constants too.
fn small_case(rng: &mut Rng, shape: Shape) -> Case {
    let mut stacked = |list: &Vec<Matrix>| {
        let cells = small_cells(rng, list);
        original::stacked(shape.l_skip, shape.n_stack, list, &cells)
    };
    let matrices: Vec<u32> = shape.lists.iter().flat_map(&mut stacked).collect();
    let mut case = Case::on(rng, Committed::new(&shape, &matrices));
    case.r.fill_with(|| constant(rng.word()));
    case
}

/// Stacking, planning, `get` and views; then the matrices in another order.
fn one_commitment(s: &mut Session, rng: &mut Rng, list: &[Matrix]) {
    let cells = small_cells(rng, list);
    let stacked = stacking::stack(s, L_SKIP, N_STACK, list, &cells);
    plans::plan(s, L_SKIP, N_STACK, list);
    let indices = [0, 255, 256, MAX_MATRICES - 1, MAX_MATRICES];
    for index in indices {
        plans::get(s, L_SKIP, N_STACK, list, (index as u32, 0));
    }
    stacking::view(s, list, &stacked, indices);
    let mut shuffled = list.to_vec();
    rng.shuffle(&mut shuffled);
    plans::set_list(s, L_SKIP, N_STACK, &shuffled);
    plans::unsorted(s, L_SKIP, N_STACK, &shuffled);
}

/// The view's methods at the limit, and one matrix past it.
pub fn by_view(s: &mut Session) {
    let rng = &mut Rng::new(0xC141);
    let list = few_cells();
    s.remark("4,096 matrices");
    let cells = small_cells(rng, &list);
    let indices = [0, 255, 256, MAX_MATRICES - 1, MAX_MATRICES];
    views::of_list(s, rng, 0, 8, &list, &cells, &indices);
    s.remark("4,097 matrices");
    s.set_list(0, 8, &triples(&one_more(list)));
    s.refused("mat_shape 0", 1);
    s.refused("mat_view 0", 1);
}

/// The run's methods there.
pub fn by_turn(s: &mut Session) {
    let rng = &mut Rng::new(0xC142);
    let shape = Shape::new(0, 8, vec![few_cells()]);
    s.remark("4,096 matrices");
    run(s, &small_case(rng, shape), Session::lengths, &[]);
    s.remark("4,097 matrices");
    s.set_list(0, 8, &triples(&one_more(few_cells())));
    refused_run(s, 1);
}

/// As many matrices as there may be, some of no column, in 16 stack columns of 2^8 rows.
fn few_cells() -> Vec<Matrix> {
    let mut list = falling(&[(3, 2), (2, 4), (1, 8), (0, 4_000)]);
    list.resize(MAX_MATRICES, matrix(0, 0, 0));
    list
}

/// Where the work buffers of a run are shown.
#[derive(PartialEq)]
enum Work {
    AfterStart,
    AfterLastFold,
}

/// A run, the claims, its verdict, then 13 and 14.
fn run_and_verdict(s: &mut Session, case: &Case, shown: &[Work]) {
    run(s, case, Session::room, shown);
    let shape = case.shape();
    let mut given = Given::honest(case);
    s.done("column_openings", &flat(&given.sent.claims));
    verdicts::set_sent(s, &given);
    verdicts::verdict(s, shape, &given, true);
    given.sent.first[0] += EF::ONE;
    s.set("first", &flat(&given.sent.first));
    verdicts::verdict(s, shape, &given, false);
    given.sent.first[0] -= EF::ONE;
    s.set("first", &flat(&given.sent.first));
    given.sent.openings[0] += EF::ONE;
    s.set("opened", &flat(&given.sent.openings));
    verdicts::verdict(s, shape, &given, false);
}

fn run(s: &mut Session, case: &Case, room: runs::Room, shown: &[Work]) {
    let shape = case.shape();
    let mut run = PeekedRun::start(&case.committed, &case.r, case.lambda);
    runs::set_inputs(s, &case.committed, &case.r, case.lambda, room);
    s.set("start", &[]);
    if shown.contains(&Work::AfterStart) {
        runs::work(s, &run);
    }
    runs::first(s, &case.committed, &case.r, case.lambda);
    s.set("fold0", &words(case.u[0]));
    run.fold_at_u_0(case.u[0]);
    let sent = Given::honest(case).sent;
    for round in 1..=shape.n_stack as usize {
        let pair = run.pair(round);
        assert_eq!(pair, sent.pairs[round - 1]);
        s.done(&format!("pair {round}"), &flat(&pair));
        s.set(&format!("fold {round}"), &words(case.u[round]));
        run.fold(round, case.u[round]);
    }
    if shown.contains(&Work::AfterLastFold) {
        runs::work(s, &run);
    }
    let openings = run.openings();
    assert_eq!(openings, sent.openings);
    s.done("openings", &flat(&openings));
}

/// One matrix more, of no column.
fn one_more(list: Vec<Matrix>) -> Vec<Matrix> {
    [list, vec![matrix(0, 0, 0)]].concat()
}

/// A list that every call refuses.
fn refused(s: &mut Session, list: Vec<Matrix>) {
    plans::plan(s, L_SKIP, N_STACK, &list);
    plans::unsorted(s, L_SKIP, N_STACK, &list);
    plans::get(s, L_SKIP, N_STACK, &list, (0, 0));
    let triples = triples(&list);
    let stacked = scope::stacking(L_SKIP, N_STACK, &triples, &[], 0);
    let number = stacked.expect_err("a refusal");
    s.refused(&format!("stack {FIRST_COMMITMENT}"), number);
    let viewed = scope::view(L_SKIP, N_STACK, &triples, 0, None);
    let number = viewed.expect_err("a refusal");
    s.refused(&format!("view {FIRST_COMMITMENT} 0"), number);
    let lists = Shape::new(L_SKIP, N_STACK, vec![list]).by_words();
    let number = lists.plans().expect_err("a refusal");
    s.refused("room", number);
    refused_run(s, number);
    s.refused("column_openings", number);
    s.refused("verdict", number);
}

fn refused_run(s: &mut Session, number: u32) {
    for call in [
        "start",
        "round0",
        "fold0 2 0 0 0",
        "pair 1",
        "fold 1 2 0 0 0",
        "openings",
    ] {
        s.refused(call, number);
    }
}
