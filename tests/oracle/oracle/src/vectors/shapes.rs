//! The runs that are stored, and the check that they cover what they must.
use crate::{
    random::{self, Case},
    rng::Rng,
    shape::{matrix, Matrix, Shape},
};

pub fn cases() -> Vec<Case> {
    let mut cases = vec![];
    for (index, shape) in fixed().into_iter().enumerate() {
        let mut rng = Rng::of_case(0x4A5, index as u64);
        cases.push(Case::new(&mut rng, &shape, false));
    }
    for case in 0..14 {
        let mut rng = Rng::of_case(0x4A6, case);
        let (l_skip, n_stack, commitments) = (rng.below(4), rng.below(4), rng.between(1, 4));
        let shape = random::shape(&mut rng, l_skip, n_stack, commitments, 2);
        cases.push(Case::new(&mut rng, &shape, case % 2 == 1));
    }
    let shapes: Vec<&Shape> = cases.iter().map(Case::shape).collect();
    check_coverage(&shapes);
    cases
}

fn fixed() -> Vec<Shape> {
    let m = matrix;
    let mut shapes = vec![
        Shape::new(0, 0, vec![vec![m(1, 0, 0)]]),
        Shape::new(0, 0, vec![vec![m(3, 0, 1)], vec![m(1, 0, 0)]]),
        Shape::new(3, 0, vec![vec![m(1, 3, 1), m(1, 1, 1), m(1, 0, 0)]]),
        // The last stack column full, then partly filled.
        Shape::new(1, 2, vec![vec![m(1, 3, 1), m(1, 2, 1), m(2, 1, 0)]]),
        Shape::new(1, 2, vec![vec![m(1, 3, 1), m(1, 1, 0), m(1, 0, 1)]]),
        // Heights that recur in later commitments, in another order.
        Shape::new(
            1,
            3,
            vec![
                vec![m(1, 3, 1), m(1, 2, 0), m(1, 0, 1)],
                vec![m(1, 2, 1)],
                vec![m(1, 3, 0)],
                vec![m(1, 0, 1)],
            ],
        ),
        // Width 0 first, between and last.
        Shape::new(
            2,
            2,
            vec![vec![
                m(0, 9, 1),
                m(1, 3, 1),
                m(0, 31, 0),
                m(2, 1, 1),
                m(0, 0, 1),
            ]],
        ),
    ];
    let later = |i: u32| vec![m(1 + i % 2, i % 3, (i + 1) % 2)];
    let mut lists = vec![vec![m(1, 2, 1), m(1, 1, 0)]];
    lists.extend((1..16).map(later));
    shapes.push(Shape::new(1, 1, lists));
    shapes.extend((1..=10).map(short_columns));
    shapes
}

/// Two short columns of different heights, so that the stacked matrix is mostly zeros.
fn short_columns(l_skip: u32) -> Shape {
    let list: Vec<Matrix> = vec![matrix(1, (l_skip - 1).min(3), 1), matrix(1, 0, l_skip % 2)];
    Shape::new(l_skip, 1, vec![list])
}

/// Everything that the stored runs must contain.
fn check_coverage(shapes: &[&Shape]) {
    let any = |what: &str, holds: &dyn Fn(&Shape) -> bool| {
        assert!(shapes.iter().any(|s| holds(s)), "no stored run with {what}");
    };
    for l_skip in 1..=10 {
        any("short columns", &|s| {
            s.l_skip == l_skip && s.columns().any(|m| m.log_height < l_skip)
        });
    }
    for flag in [0, 1] {
        any("flag", &|s| s.columns().any(|m| m.flag == flag));
    }
    for commitments in [1, 2, 3, 4, 16] {
        any("commitments", &|s| s.lists.len() == commitments);
    }
    any("a recurring height", &|s| {
        let later = s.lists[1..].iter().flatten();
        later
            .clone()
            .any(|m| s.lists[0].iter().any(|n| n.log_height == m.log_height))
    });
    any("width 0", &|s| {
        s.lists.iter().flatten().any(|m| m.width == 0)
    });
    any("n_stack 0", &|s| s.n_stack == 0);
    any("a full last stack column", &|s| {
        rows_used(s) % s.height() == 0
    });
    any("a partly filled one", &|s| rows_used(s) % s.height() != 0);
}

/// Rows taken by the first commitment's columns.
fn rows_used(shape: &Shape) -> usize {
    let rows = |m: &Matrix| (m.width as usize) << m.log_height.max(shape.l_skip);
    shape.lists[0]
        .iter()
        .filter(|m| m.width > 0)
        .map(rows)
        .sum()
}
