//! The table functions, at every l_skip and at up to six coordinates.
use super::session::{with_words, Origin, Session};
use crate::{field::*, original::*, rng::Rng};

pub fn session() -> Session {
    let mut s = Session::new("tables");
    let mut rng = Rng::new(0x7AB1E5);
    checked_values(&mut s);
    for coordinates in 0..=6 {
        cube(&mut s, &mut rng, coordinates);
    }
    for l_skip in 0..=10 {
        univariate(&mut s, &mut rng, l_skip);
        prism(&mut s, &mut rng, l_skip);
    }
    for _ in 0..8 {
        interpolation(&mut s, &mut rng);
    }
    refusals(&mut s);
    starting_elements(&mut s, &mut rng);
    from_the_last(&mut s);
    s
}

fn checked_values(s: &mut Session) {
    let minus = |x: u32| P - x;
    for (command, answer) in [
        (
            "interpolate_quadratic_at_012 0 0 0 0 1 0 0 0 4 0 0 0 3 0 0 0",
            "ok 9 0 0 0".into(),
        ),
        (
            "evals_eq_hypercube 2 0 0 0 3 0 0 0",
            format!("ok 2 0 0 0 {} 0 0 0 {} 0 0 0 6 0 0 0", minus(4), minus(3)),
        ),
        ("eval_eq_mle 2 0 0 0 3 0 0 0", "ok 8 0 0 0".into()),
        (
            "eval_eq_rot_cube 2 0 0 0 3 0 0 0",
            format!("ok 8 0 0 0 {} 0 0 0", minus(7)),
        ),
        ("eval_eq_uni 1 3 0 0 0 5 0 0 0", "ok 8 0 0 0".into()),
        ("eval_in_uni 1 0 3 0 0 0", "ok 2 0 0 0".into()),
        ("eval_in_uni 1 1 3 0 0 0", "ok 1 0 0 0".into()),
    ] {
        s.ask(Origin::Document, command, &answer);
    }
}

/// Functions of points of the cube.
fn cube(s: &mut Session, rng: &mut Rng, coordinates: usize) {
    let (a, b) = (
        rng.edge_words(4 * coordinates),
        rng.edge_words(4 * coordinates),
    );
    let (x, y) = (elements(&a), elements(&b));
    let both = [&a[..], &b].concat();
    s.done(
        &with_words("eval_eq_mle", &both),
        &words(eval_eq_mle(&x, &y)),
    );
    let (eq, rot) = eval_eq_rot_cube(&x, &y);
    s.done(&with_words("eval_eq_rot_cube", &both), &flat(&[eq, rot]));
    let canonical = rng.words(4 * coordinates);
    let table = evals_eq_hypercube(&elements(&canonical));
    s.done(&with_words("evals_eq_hypercube", &canonical), &flat(&table));
}

/// Functions of the skip subgroup; n runs from -l_skip to 1.
fn univariate(s: &mut Session, rng: &mut Rng, l_skip: u32) {
    for _ in 0..2 {
        let (a, b) = (rng.edge_element(), rng.edge_element());
        let (x, y) = (element(a), element(b));
        let l = l_skip as usize;
        let command = with_words("eval_eq_uni", &[&[l_skip][..], &a, &b].concat());
        s.done(&command, &words(eval_eq_uni(l, x, y)));
        let command = with_words("eval_eq_uni_at_one", &[&[l_skip][..], &a].concat());
        s.done(&command, &words(eval_eq_uni_at_one(l, x)));
    }
    for log_height in 0..=l_skip + 1 {
        let a = rng.edge_element();
        let n = log_height as isize - l_skip as isize;
        let value = eval_in_uni(l_skip as usize, n, element(a));
        let command = with_words("eval_in_uni", &[&[l_skip, log_height][..], &a].concat());
        s.done(&command, &words(value));
    }
}

/// Functions of points of the prism: one univariate coordinate, then those of the cube.
fn prism(s: &mut Session, rng: &mut Rng, l_skip: u32) {
    for coordinates in [1, 2, 4] {
        let (a, b) = (
            rng.edge_words(4 * coordinates),
            rng.edge_words(4 * coordinates),
        );
        let (x, y) = (elements(&a), elements(&b));
        let l = l_skip as usize;
        let given = [&[l_skip][..], &a, &b].concat();
        let eq = eval_eq_prism(l, &x, &y);
        s.done(&with_words("eval_eq_prism", &given), &words(eq));
        let rot = eval_rot_kernel_prism(l, &x, &y);
        s.done(&with_words("eval_rot_kernel_prism", &given), &words(rot));
    }
}

fn interpolation(s: &mut Session, rng: &mut Rng) {
    let (a, x) = (rng.edge_words(12), rng.edge_element());
    let at = |i: usize| element(a[4 * i..4 * i + 4].try_into().unwrap());
    let value = interpolate_quadratic_at_012(&[at(0), at(1), at(2)], element(x));
    let command = with_words("interpolate_quadratic_at_012", &[&a[..], &x].concat());
    s.done(&command, &words(value));

    let coefficients = rng.below(10) as usize;
    let c = rng.edge_words(4 * coefficients);
    let value: EF = horner_eval(&elements(&c), element(x));
    s.done(
        &with_words("horner_eval", &[&c[..], &x].concat()),
        &words(value),
    );
}

/// A table writer refuses words that are not below p.
fn refusals(s: &mut Session) {
    s.refused(&with_words("evals_eq_hypercube", &[P, 0, 0, 0]), 10);
    s.refused(&with_words("evals_eq_hypercube", &[1, 0, 0, u32::MAX]), 10);
}

/// Tables with a starting element: the Rust's entries, each times it.
fn starting_elements(s: &mut Session, rng: &mut Rng) {
    let with_start =
        |start: &[u32], x: &[u32]| with_words("evals_eq_hypercube_from", &[start, x].concat());
    for coordinates in 0..=4 {
        let fixed = [[0; 4], [1, 0, 0, 0], [P - 1, 0, 0, 0], [0, 1, 0, 0]];
        let drawn = std::array::from_fn(|_| rng.word());
        for start in fixed.into_iter().chain([drawn]) {
            let x = rng.words(4 * coordinates);
            s.done(&with_start(&start, &x), &started(start, &x));
        }
    }
    for at in 0..4 {
        let mut start = [2, 3, 5, 7];
        start[at] = [P, P + 1, u32::MAX, P][at];
        s.refused(&with_start(&start, &[2, 0, 0, 0]), 10);
    }
    s.refused(&with_start(&[5, 0, 0, 0], &[2, 0, P, 0]), 10);
    s.refused(&with_start(&[P, 0, 0, 0], &[2, 0, 0]), 9);
    s.refused(&with_start(&[5, 0, 0, 0], &[2, 0, 0, 0, 3]), 9);
}

/// The tables of the last k of (2, 3, 4), k = 1, 2, 3, which stand in the first 2^k entries after k coordinates; then of (2, 3)
/// with a starting element of 5. Different coordinates show every exchange of the index's bits.
fn from_the_last(s: &mut Session) {
    let words =
        |numbers: &[u32]| -> Vec<u32> { numbers.iter().flat_map(|x| [*x, 0, 0, 0]).collect() };
    for (start, x) in [(1, &[2, 3, 4][..]), (5, &[2, 3])] {
        for from in (0..x.len()).rev() {
            let point = words(&x[from..]);
            let start = [start, 0, 0, 0];
            let command = match start[0] {
                1 => with_words("evals_eq_hypercube", &point),
                _ => with_words("evals_eq_hypercube_from", &[&start[..], &point].concat()),
            };
            s.done(&command, &started(start, &point));
        }
    }
}
