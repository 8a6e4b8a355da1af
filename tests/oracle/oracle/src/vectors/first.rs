//! Document 02, C-15: the first polynomial and the trace columns' openings, at every l_skip and at the edges, and their refusals.
use super::{
    runs,
    session::{with_words, Origin, Session, FIRST_COMMITMENT},
    verdicts::{self, Given},
};
use crate::{
    field::*,
    original::{self, Committed, Run, Sent},
    random::{self, Case},
    rng::Rng,
    scope::{self, Call, RunGiven, RunInput, Turn, WorkBuffers},
    shape::{matrix, triples_with_heights, Matrix, Shape},
};

/// From here on r and lambda are constants and the words are small, to keep the file so.
const SMALL_FROM: u32 = 5;

pub fn session() -> Session {
    let mut s = Session::new("first");
    worked(&mut s);
    from_its_cell(&mut s);
    for l_skip in 0..=10 {
        every_size(&mut s, l_skip);
    }
    edges(&mut s);
    long_columns(&mut s);
    in_turn(&mut s);
    refusals(&mut s);
    s
}

/// A run up to its first polynomial, and the claims.
fn made(s: &mut Session, committed: &Committed, r: &[EF], lambda: EF) {
    runs::set_inputs(s, committed, r, lambda, Session::room);
    s.set("start", &[]);
    runs::first(s, committed, r, lambda);
    s.done("column_openings", &flat(&committed.claims(r)));
}

/// Small shapes that can be followed by hand: the coefficients in quarters, then the claims.
fn worked(s: &mut Session) {
    s.remark("worked by hand");
    let one = |l_skip, n_stack, log_height, flag| {
        Shape::new(l_skip, n_stack, vec![vec![matrix(1, log_height, flag)]])
    };
    // Rows 5 and 6. Then the cell 5 alone, 6 or 0 being the word between: the claim is the same, the polynomial is not.
    for (shape, rows, r, quarters, claims) in [
        (
            one(1, 0, 1, 0),
            &[5, 6][..],
            &[3][..],
            &[11, 32, -3][..],
            &[4][..],
        ),
        (one(1, 0, 0, 0), &[5, 6], &[3], &[11, 10, -1], &[5]),
        (one(1, 0, 0, 0), &[5, 0], &[3], &[5, 10, 5], &[5]),
        (one(0, 1, 1, 1), &[4, 10], &[7, 8], &[-552], &[52, -38]),
        (
            one(1, 1, 2, 1),
            &[1, 2, 3, 4],
            &[3, 2],
            &[126, -78, 12],
            &[4, 13],
        ),
    ] {
        let committed = Committed::new(&shape, rows);
        let r: Vec<EF> = r.iter().map(|x| constant(*x)).collect();
        let whole = |x: &i64| constant(x.rem_euclid(P as i64) as u32);
        let quarter = |x: &i64| whole(x).halve().halve();
        let first = Run::start(&committed, &r, constant(5)).first_polynomial();
        assert_eq!(first, quarters.iter().map(quarter).collect::<Vec<_>>());
        let wanted: Vec<EF> = claims.iter().map(whole).collect();
        assert_eq!(committed.claims(&r), wanted);
        made(s, &committed, &r, constant(5));
    }
}

/// The shape of document 01's row 13 with the cell 2, from the cell to the yes.
fn from_its_cell(s: &mut Session) {
    s.remark("one cell, from its trace to the verdict");
    let list = [matrix(1, 0, 0)];
    let shape = Shape::new(0, 0, vec![list.to_vec()]);
    s.set_list(0, 0, &triples_with_heights(&list));
    s.set("cells", &[2]);
    let stacked = original::stacked(0, 0, &list, &[2]);
    s.done(&format!("stack {FIRST_COMMITMENT}"), &stacked);
    let committed = Committed::new(&shape, &stacked);
    let r = [constant(7)];
    made(s, &committed, &r, constant(5));
    s.set("fold0", &[9, 0, 0, 0]);
    let mut run = Run::start(&committed, &r, constant(5));
    run.fold_at_u_0(constant(9));
    s.done("openings", &flat(&run.openings()));
    let given = Given::new(
        &r,
        &[constant(5), constant(9)],
        Sent::constants(&[2], &[2], &[2]),
    );
    verdicts::set_sent(s, &given);
    verdicts::verdict(s, &shape, &given, true);
}

/// Long and short columns, flagged and not, with zeros between the cells and then with any words.
fn every_size(s: &mut Session, l_skip: u32) {
    let m = matrix;
    let mut rng = Rng::of_case(0xC15, l_skip as u64);
    let small = l_skip >= SMALL_FROM;
    let shapes = match l_skip {
        0 => [(); 2].map(|()| vec![vec![m(1, 2, 1), m(1, 1, 0), m(2, 0, 1)], vec![m(1, 1, 1)]]),
        1..SMALL_FROM => [(); 2].map(|()| {
            let first = vec![
                m(1, l_skip + 1, 1),
                m(1, l_skip, 0),
                m(1, l_skip - 1, 1),
                m(1, 0, 0),
            ];
            vec![first, vec![m(2, l_skip / 2, 1)], vec![m(1, l_skip, 1)]]
        }),
        _ => [
            vec![vec![m(1, l_skip - 2, 1), m(1, 1, 0)]],
            vec![vec![m(1, l_skip, 1), m(1, l_skip - 1, 1)]],
        ],
    };
    let n_stack = if small { 1 } else { 2 };
    for (any_words, lists) in [false, true].into_iter().zip(shapes) {
        let shape = Shape::new(l_skip, n_stack, lists);
        let words = if any_words { "any words" } else { "zeros" };
        s.remark(&format!("{shape}, {words} between the cells"));
        let mut matrices = random::matrices(&mut rng, &shape, any_words);
        if small {
            matrices.iter_mut().for_each(|word| *word %= 100);
        }
        let mut case = Case::on(&mut rng, Committed::new(&shape, &matrices));
        if small {
            case.r.fill_with(|| constant(rng.word()));
            case.lambda = constant(rng.word());
        }
        made(s, &case.committed, &case.r, case.lambda);
    }
}

/// r_0 in the skip subgroup, coordinates and lambda of 0, 1 and p - 1, words of p - 1; 16 commitments, 4,096 columns, n_stack 0.
fn edges(s: &mut Session) {
    let m = matrix;
    let mut rng = Rng::new(0xC151);
    let list = vec![m(1, 3, 1), m(1, 2, 0), m(1, 1, 1), m(1, 0, 0)];
    let shape = Shape::new(2, 1, vec![list, vec![m(1, 1, 1)]]);
    let root = F::two_adic_generator(2).word();
    let lasts = element([P - 1; 4]);
    let any = rng.element();
    let edges = [
        ("r_0 is 1", vec![EF::ONE, any], any),
        ("r_0 is the generator", vec![constant(root), any], any),
        ("r_0 is -1", vec![EF::NEG_ONE, any], any),
        ("r is zero", vec![EF::ZERO; 2], any),
        ("r is one", vec![EF::ONE; 2], any),
        ("lambda is zero", vec![any, any], EF::ZERO),
        ("lambda is p - 1", vec![any, any], EF::NEG_ONE),
        ("every word is p - 1", vec![lasts; 2], lasts),
    ];
    for (what, r, lambda) in edges {
        s.remark(what);
        let mut matrices = random::matrices(&mut rng, &shape, true);
        if lambda == lasts {
            matrices.fill(P - 1);
        }
        made(s, &Committed::new(&shape, &matrices), &r, lambda);
    }
    let one_each = |i: u32| vec![m(1, i % 4, i % 2)];
    for (what, shape) in [
        (
            "16 commitments",
            Shape::new(2, 1, (0..16).map(one_each).collect()),
        ),
        (
            "n_stack 0",
            Shape::new(3, 0, vec![vec![m(1, 3, 1), m(1, 2, 1), m(1, 0, 1)]]),
        ),
    ] {
        s.remark(what);
        let case = Case::new(&mut rng, &shape, true);
        made(s, &case.committed, &case.r, case.lambda);
    }
    s.remark("4,096 columns of one cell");
    let shape = Shape::new(0, 0, vec![vec![m(4_096, 0, 1)]]);
    let cells: Vec<u32> = (0..4_096).map(|_| rng.below(10)).collect();
    let r = [constant(7)];
    made(s, &Committed::new(&shape, &cells), &r, rng.element());
}

/// Columns of 256 and 512 blocks, with any words and with p - 1 in every word that is added up: at r_1 to r_8 one half the table of
/// the blocks from 256 on is -1 - X - X^2 - X^3 in every entry.
fn long_columns(s: &mut Session) {
    let mut rng = Rng::new(0xC152);
    let half = EF::ONE.halve();
    let mut at_lasts = vec![half; 9];
    at_lasts[0] = rng.element();
    at_lasts.push(element([P - 1; 4]) * constant(256));
    for list in [
        vec![matrix(1, 9, 1)],
        vec![matrix(1, 8, 1), matrix(1, 8, 0)],
    ] {
        let shape = Shape::new(0, 9, vec![list]);
        s.remark(&format!("columns of 256 blocks and more: {shape}"));
        let case = Case::new(&mut rng, &shape, true);
        made(s, &case.committed, &case.r, case.lambda);
        let lasts = Committed::new(&shape, &[P - 1; 512]);
        made(s, &lasts, &at_lasts, case.lambda);
    }
    let shape = Shape::new(1, 9, vec![vec![matrix(1, 10, 1)]]);
    s.remark(&format!("columns of 256 blocks and more: {shape}"));
    let case = small_words(&mut rng, &shape);
    made(s, &case.committed, &case.r, case.lambda);
}

fn small_words(rng: &mut Rng, shape: &Shape) -> Case {
    let mut matrices = random::matrices(rng, shape, true);
    matrices.iter_mut().for_each(|word| *word %= 1_000);
    Case::on(rng, Committed::new(shape, &matrices))
}

/// One long and one short column, and a second commitment whose stack column is half filled.
fn small_shape() -> Shape {
    let first: Vec<Matrix> = vec![matrix(1, 1, 1), matrix(1, 0, 0)];
    Shape::new(1, 1, vec![first, vec![matrix(1, 0, 1)]])
}

/// The first polynomial at every turn, and the openings, which have none.
fn in_turn(s: &mut Session) {
    s.remark("turns");
    let mut rng = Rng::new(0xC153);
    let case = Case::new(&mut rng, &small_shape(), true);
    let (u_0, u_1) = (words(case.u[0]), words(case.u[1]));
    let mut run = Run::start(&case.committed, &case.r, case.lambda);
    let claims = flat(&case.committed.claims(&case.r));
    runs::set_inputs(s, &case.committed, &case.r, case.lambda, Session::room);
    s.set("start", &[]);
    s.done("column_openings", &claims);
    for call in [&with_words("fold0", &u_0)[..], "pair 1", "openings"] {
        s.refused(call, 8);
    }
    s.done("round0", &flat(&run.first_polynomial()));
    s.refused("round0", 8);
    s.set("fold0", &u_0);
    run.fold_at_u_0(case.u[0]);
    s.refused("round0", 8);
    s.done("column_openings", &claims);
    s.done("pair 1", &flat(&run.pair(1)));
    s.refused("round0", 8);
    s.set("fold 1", &u_1);
    run.fold(1, case.u[1]);
    s.refused("round0", 8);
    s.done("openings", &flat(&run.openings()));
    s.refused("round0", 8);
    s.done("column_openings", &claims);
    // A start begins again.
    s.set("start", &[]);
    runs::first(s, &case.committed, &case.r, case.lambda);
    s.set("start", &[]);
    runs::first(s, &case.committed, &case.r, case.lambda);
}

/// Both calls with one thing wrong, and with two; the first polynomial at its turn, and after it.
fn refusals(s: &mut Session) {
    s.remark("refusals");
    let mut rng = Rng::new(0xC154);
    let case = Case::new(&mut rng, &small_shape(), true);
    let good = case.by_words();
    runs::set_inputs(s, &case.committed, &case.r, case.lambda, Session::room);
    s.set("start", &[]);
    let mut held = Held {
        lengths: [
            4 * good.lists.coefficient_count(),
            4 * good.lists.claim_count(),
        ],
        input: good.clone(),
        turn: Turn::First,
    };
    let last = good.matrices.len() - 1;
    let changes: [(&str, &dyn Fn(&mut RunInput)); 11] = [
        ("r a word short", &|i| i.r.truncate(7)),
        ("r of one element", &|i| i.r.truncate(4)),
        ("r an element more", &|i| i.r.extend([1, 0, 0, 0])),
        ("a matrix a word short", &|i| i.matrices.truncate(last)),
        ("a matrix a word more", &|i| i.matrices.push(0)),
        ("no matrix", &|i| i.matrices.clear()),
        ("lambda is p", &|i| i.lambda = [P, 0, 0, 0]),
        ("a word of r is p", &|i| i.r[7] = P),
        ("the first cell is p", &|i| i.matrices[0] = P),
        ("a word between cells is p", &|i| i.matrices[3] = P),
        ("a word past the last column is p", &|i| {
            i.matrices[last] = P
        }),
    ];
    for (what, change) in changes {
        s.remark(what);
        let mut input = good.clone();
        change(&mut input);
        held.change(s, input);
        held.refused(s);
    }
    let wrong = |l_skip, n_stack, counts: &[u32], words: &[u32]| scope::Lists {
        l_skip,
        n_stack,
        counts: counts.to_vec(),
        words: words.to_vec(),
    };
    for lists in [
        wrong(11, 0, &[1], &[1, 0, 0]),
        wrong(1, 1, &[1], &[1, 0, 2]),
        wrong(1, 1, &[1], &[4_097, 0, 0]),
        wrong(1, 1, &[1], &[1, 3, 0]),
        wrong(0, 3, &[2], &[1, 2, 0, 1, 3, 0]),
        wrong(0, 2, &[2], &[1, 0, 0, 1, 1, 0]),
        wrong(1, 1, &[2, 1], &[1, 1, 1, 1, 0, 0, 0, 0, 0]),
        wrong(1, 1, &[2, 1], &[1, 1, 1, 1, 0, 0]),
        wrong(1, 1, &[1], &[1, 1, 1, 1, 0, 0]),
    ] {
        let mut input = good.clone();
        input.lists = lists;
        // A word that is not below p as well: the lists' number is the lower one.
        input.lambda = [P, 0, 0, 0];
        held.change(s, input);
        held.refused(s);
    }
    s.remark("all of it had changed nothing");
    held.change(s, good.clone());
    runs::first(s, &case.committed, &case.r, case.lambda);
    held.turn = Turn::FoldAtU0;
    s.remark("out of turn as well");
    let mut input = good.clone();
    input.lambda = [P, 0, 0, 0];
    held.change(s, input.clone());
    held.refused(s);
    input.r.clear();
    held.change(s, input);
    held.refused(s);
    held.change(s, good);
    s.done("column_openings", &flat(&case.committed.claims(&case.r)));
}

/// What the console holds, and the lengths of the two lent slices.
struct Held {
    input: RunInput,
    lengths: [usize; 2],
    turn: Turn,
}

impl Held {
    /// Sets what has become another.
    fn change(&mut self, s: &mut Session, input: RunInput) {
        let before = std::mem::replace(&mut self.input, input);
        let now = &self.input;
        let lists = &now.lists;
        let by_words = |l: &scope::Lists| {
            let head = [l.l_skip, l.n_stack, l.counts.len() as u32];
            [&head[..], &l.counts, &l.words].concat()
        };
        for (name, before, now) in [
            ("shape", by_words(&before.lists), by_words(lists)),
            ("matrix", before.matrices, now.matrices.clone()),
            ("point", before.r, now.r.clone()),
            ("lambda", before.lambda.to_vec(), now.lambda.to_vec()),
        ] {
            if before != now {
                s.set(name, &now);
            }
        }
    }

    /// Asks for both calls; the openings have no turn, so they may be refused by another number.
    fn refused(&self, s: &mut Session) {
        let given = RunGiven {
            input: &self.input,
            challenge: [0; 4],
            work: WorkBuffers::of(&[[]; 4]),
            coefficients: self.lengths[0],
            openings: 0,
        };
        let first = scope::run_call(self.turn, Call::First, &given).expect_err("a refusal");
        let claims = scope::column_openings(&self.input, self.lengths[1]).expect_err("a refusal");
        s.ask(Origin::Document, "round0", &format!("refused {first}"));
        s.ask(
            Origin::Document,
            "column_openings",
            &format!("refused {claims}"),
        );
    }
}
