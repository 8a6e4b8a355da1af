//! Planning, `get`, and planning in whatever order, on lists of every kind.
use super::session::{with_words, Origin, Session, FIRST_COMMITMENT};
use crate::{
    original, random,
    record::digits,
    rng::Rng,
    scope,
    shape::{matrix, triples, Matrix, Shape},
};

pub fn session() -> Session {
    let mut s = Session::new("plans");
    for (l_skip, n_stack, list) in fixed() {
        plan(&mut s, l_skip, n_stack, &list);
        unsorted(&mut s, l_skip, n_stack, &list);
    }
    for case in 0..60 {
        let mut rng = Rng::of_case(0x914, case);
        let (l_skip, n_stack, mut list) = drawn(&mut rng);
        plan(&mut s, l_skip, n_stack, &list);
        for _ in 0..3 {
            let at = (rng.below(5), rng.below(4));
            get(&mut s, l_skip, n_stack, &list, at);
        }
        rng.shuffle(&mut list);
        set_list(&mut s, l_skip, n_stack, &list);
        unsorted(&mut s, l_skip, n_stack, &list);
    }
    many(&mut s);
    for (l_skip, n_stack, list) in equal_heights() {
        plan(&mut s, l_skip, n_stack, &list);
        unsorted(&mut s, l_skip, n_stack, &list);
    }
    s
}

/// Document 02, C-14: past 256 matrices, up to the limits of matrices and columns.
fn many(s: &mut Session) {
    let one = matrix(1, 0, 0);
    let list = [one; 700];
    set_list(s, 0, 0, &list);
    for at in [(0, 0), (255, 0), (256, 0), (699, 0), (699, 1), (700, 0)] {
        get(s, 0, 0, &list, at);
    }
    let list = [matrix(4_096, 0, 1)];
    plan(s, 0, 0, &list);
    for at in [(0, 4_095), (0, 4_096)] {
        get(s, 0, 0, &list, at);
    }
    let list = [one; 4_096];
    plan(s, 0, 12, &list);
    for at in [(256, 0), (4_095, 0), (4_096, 0)] {
        get(s, 0, 12, &list, at);
    }
    // As many of each log height from 3 to 0, and of these as many of each width from 2 to 0.
    let one = |i: u32| matrix(i / 4 % 3, i % 4, i / 12 % 2);
    let mut list: Vec<Matrix> = (0..4_096).map(one).collect();
    Rng::new(0x914C).shuffle(&mut list);
    set_list(s, 1, 4, &list);
    unsorted(s, 1, 4, &list);
    let list = [matrix(0, 0, 0); 4_097];
    plan(s, 0, 0, &list);
    unsorted(s, 0, 0, &list);
    get(s, 0, 0, &list, (0, 0));
}

/// The table's examples and the limits.
fn fixed() -> Vec<(u32, u32, Vec<Matrix>)> {
    let m = matrix;
    vec![
        (1, 1, vec![m(1, 2, 0), m(2, 0, 1)]),
        (11, 0, vec![m(1, 0, 0)]),
        (10, 15, vec![m(1, 0, 0)]),
        (0, 21, vec![m(1, 0, 0)]),
        (0, 0, vec![m(1, 0, 2)]),
        (0, 0, vec![m(4_097, 0, 0)]),
        (1, 1, vec![m(1, 3, 0)]),
        (0, 3, vec![m(1, 2, 0), m(1, 3, 0)]),
        (0, 2, vec![m(1, 0, 0), m(1, 1, 0)]),
        (0, 2, vec![m(0, 99, 0)]),
        (0, 2, vec![]),
        (4, 20, vec![m(1, 24, 1)]),
        (10, 14, vec![m(3, 23, 1), m(2, 0, 0)]),
        (0, 0, vec![m(3, 0, 1)]),
    ]
}

/// Document 02, C-16: widths that rise among equal heights, and the widest and highest twice.
fn equal_heights() -> Vec<(u32, u32, Vec<Matrix>)> {
    let m = matrix;
    let level = vec![m(1, 1, 0), m(2, 1, 1), m(0, 1, 0), m(2, 1, 0)];
    let five = vec![m(2, 0, 1), m(1, 3, 0), m(0, 7, 0), m(1, 2, 1), m(2, 2, 0)];
    let most = vec![m(u32::MAX, u32::MAX, 1); 2];
    vec![(0, 2, level), (1, 2, five), (0, 0, most)]
}

/// Mostly accepted; else heights that rise or are too tall, or a flag over 1.
fn drawn(rng: &mut Rng) -> (u32, u32, Vec<Matrix>) {
    let (l_skip, n_stack) = (rng.below(5), rng.below(5));
    let mut list = random::list(rng, l_skip, n_stack, 4, 4);
    if rng.once_in(4) {
        let at = rng.below(list.len() as u32) as usize;
        list[at].log_height = rng.below(l_skip + n_stack + 3);
    }
    if rng.once_in(16) {
        let at = rng.below(list.len() as u32) as usize;
        list[at].flag = 2;
    }
    (l_skip, n_stack, list)
}

pub fn set_list(s: &mut Session, l_skip: u32, n_stack: u32, list: &[Matrix]) {
    s.set_shape(&Shape::new(l_skip, n_stack, vec![list.to_vec()]));
}

pub fn plan(s: &mut Session, l_skip: u32, n_stack: u32, list: &[Matrix]) {
    set_list(s, l_skip, n_stack, list);
    let command = format!("plan {FIRST_COMMITMENT}");
    match scope::planning(l_skip, n_stack, &triples(list), 2 * columns(list)) {
        Err(number) => s.refused(&command, number),
        Ok(_) => {
            let plan = original::plan(l_skip, n_stack, list).expect("document 01 accepts it");
            s.ask(Origin::Rust, &command, &planned(&plan, &[]));
        }
    }
}

/// Planning of the list that was set last, in whatever order it is.
pub fn unsorted(s: &mut Session, l_skip: u32, n_stack: u32, list: &[Matrix]) {
    let command = format!("plan_unsorted {FIRST_COMMITMENT}");
    let words = 2 * columns(list);
    match scope::unsorted_planning(l_skip, n_stack, &triples(list), list.len(), words) {
        Err(number) => s.refused(&command, number),
        Ok(_) => {
            let (positions, plan) =
                original::plan_unsorted(l_skip, n_stack, list).expect("document 02 accepts it");
            s.ask(Origin::Rust, &command, &planned(&plan, &positions));
        }
    }
}

fn columns(list: &[Matrix]) -> usize {
    list.iter().map(|m| m.width as usize).sum()
}

/// The three numbers of a plan, these positions, and the records.
fn planned(plan: &original::Plan, positions: &[u32]) -> String {
    let head = format!("ok {} {} {}", plan.width, plan.height, plan.records.len());
    let mut answer = with_words(&head, positions);
    for record in &plan.records {
        answer += " ";
        answer += &digits(*record);
    }
    answer
}

pub fn get(s: &mut Session, l_skip: u32, n_stack: u32, list: &[Matrix], at: (u32, u32)) {
    let (index, column) = at;
    let command = format!("get {FIRST_COMMITMENT} {index} {column}");
    match scope::get(l_skip, n_stack, &triples(list), index, column) {
        Err(number) => s.refused(&command, number),
        Ok(_) => {
            let layout = original::layout(l_skip, n_stack, list).expect("document 01 accepts it");
            let (index, column) = (index as usize, column as usize);
            let slice = layout.get(index, column).expect("the column is there");
            let record = original::record(index, column, slice);
            let answer = format!("ok {}", digits(record));
            s.ask(Origin::Rust, &command, &answer);
        }
    }
}
