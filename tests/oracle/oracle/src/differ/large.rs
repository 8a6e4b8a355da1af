//! A fixed set of cases at document 01's limits, past the sizes that the groups draw.
use super::{first, lists::Drawn, runs, stacking, verdicts, Tally};
use crate::{
    library::Library,
    original::Committed,
    random::Case,
    rng::Rng,
    shape::{matrix, triples, Matrix, Shape},
};

/// Verdicts on damaged copies of what a run sends.
const DAMAGED: usize = 8;

/// The lists of a case, and whether a run and its verdicts follow on what was stacked.
pub struct LargeCase {
    pub name: &'static str,
    pub shape: Shape,
    runs: bool,
}

pub fn large_cases() -> Vec<LargeCase> {
    let m = matrix;
    let case = |name, l_skip, n_stack, lists, runs| LargeCase {
        name,
        shape: Shape::new(l_skip, n_stack, lists),
        runs,
    };
    vec![
        case(
            "run at 0 20",
            0,
            20,
            vec![
                vec![
                    m(1, 20, 1),
                    m(1, 19, 0),
                    m(2, 18, 1),
                    m(1, 13, 1),
                    m(3, 5, 0),
                    m(5, 0, 1),
                ],
                vec![m(1, 20, 0)],
                vec![m(2, 13, 1)],
            ],
            true,
        ),
        case(
            "run at 4 20",
            4,
            20,
            vec![
                vec![m(1, 24, 1), m(1, 20, 0), m(1, 9, 1), m(3, 2, 1), m(2, 0, 0)],
                vec![m(1, 24, 0)],
            ],
            true,
        ),
        case(
            "run at 10 14",
            10,
            14,
            vec![
                vec![
                    m(1, 24, 0),
                    m(1, 22, 1),
                    m(2, 12, 1),
                    m(3, 9, 1),
                    m(1, 3, 0),
                    m(2, 0, 1),
                ],
                vec![m(1, 23, 1)],
            ],
            true,
        ),
        case(
            "16 commitments of 4,096 columns",
            2,
            3,
            most_columns(),
            true,
        ),
        case(
            "stacking at 2^24 rows",
            6,
            18,
            vec![vec![
                m(1, 24, 0),
                m(3, 22, 1),
                m(0, 24, 0),
                m(4_000, 9, 1),
                m(80, 6, 0),
                m(12, 1, 1),
            ]],
            false,
        ),
        case(
            "700 matrices",
            2,
            4,
            vec![of_one_column(700, 6), vec![m(3, 5, 1)], vec![m(2, 1, 0)]],
            true,
        ),
        case("4,096 matrices", 2, 3, most_matrices(), true),
    ]
}

/// Matrices of one column, of as many of each log height from the top to 0, every second flagged.
fn of_one_column(matrices: u32, top: u32) -> Vec<Matrix> {
    let one = |i| matrix(1, top - i * (top + 1) / matrices, i % 2);
    (0..matrices).map(one).collect()
}

/// The most commitments, and the most matrices in the first.
fn most_matrices() -> Vec<Vec<Matrix>> {
    let later = (1..16).map(|i| vec![matrix(1 + i % 3, i % 6, i % 2)]);
    [vec![of_one_column(4_096, 5)], later.collect()].concat()
}

/// The most commitments, each of the most columns: the first of 256 matrices, the others of one.
fn most_columns() -> Vec<Vec<Matrix>> {
    let first = (0..256).map(|i| matrix(16, 5 - i * 6 / 256, i % 2));
    let later = (1..16).map(|i| vec![matrix(4_096, i % 6, (i + 1) % 2)]);
    [vec![first.collect()], later.collect()].concat()
}

impl LargeCase {
    /// Compares the stacking of every list, with its views, then a run, the claims and the verdicts.
    pub fn run(&self, seed: u64, library: &dyn Library) -> Tally {
        let Shape {
            l_skip,
            n_stack,
            ref lists,
        } = self.shape;
        let (mut rng, mut tally) = (Rng::new(seed), Tally::default());
        let library = Some(library);
        let mut matrices = vec![];
        for list in lists {
            let drawn = Drawn {
                l_skip,
                n_stack,
                list: triples(list),
            };
            matrices.extend(stacking::accepted(&mut rng, &drawn, library, &mut tally));
        }
        if self.runs {
            let committed = Committed::new(&self.shape, &matrices);
            drop(matrices);
            runs::whole(&mut rng, &committed, library, &mut tally);
            first::openings(&mut rng, &committed, library, &mut tally);
            let case = Case::on(&mut rng, committed);
            verdicts::on_run(&mut rng, &case, DAMAGED, library, &mut tally);
        }
        tally
    }
}
