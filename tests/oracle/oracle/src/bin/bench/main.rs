//! Times a run, the trace columns' openings and the verdict in the original Rust, and in ours where it is linked,
//! on the same inputs.
//! bench [L_SKIP N_STACK MATRICES WIDTH RUNS]
//! With the feature `ours` it prints the verdicts at 300 and 4,096 columns, the runs of three sizes with and without
//! their first polynomial, this alone and the openings, the first polynomial of one column, planning of 256, 1,024 and
//! 4,096 matrices and of 256 and 4,096 in three orders first, then the parts of the run that the words give.

#[cfg(feature = "ours")]
mod first;
mod original;
#[cfg(feature = "ours")]
mod ours;
#[cfg(feature = "ours")]
mod plan;
#[cfg(feature = "ours")]
mod prover;
#[cfg(feature = "ours")]
mod unsorted;
mod verdict;

use std::env;

use oracle::{
    field::EF,
    random::Case,
    rng::Rng,
    shape::{matrix, Shape},
};

/// What the calls of a run return.
struct Returned {
    /// None where it was not asked for.
    first: Vec<EF>,
    pairs: Vec<[EF; 2]>,
    openings: Vec<EF>,
}

/// Seconds of the parts of one run.
#[derive(Clone, Copy)]
struct Times {
    start: f64,
    first: f64,
    fold_at_u_0: f64,
    pairs: f64,
    folds: f64,
    openings: f64,
}

impl Times {
    /// All of the run.
    fn run(&self) -> f64 {
        self.later() + self.first
    }

    /// All but the first polynomial.
    fn later(&self) -> f64 {
        self.start + self.fold_at_u_0 + self.pairs + self.folds + self.openings
    }

    fn print(&self, who: &str, verdict: f64) {
        let Self {
            start,
            first,
            fold_at_u_0,
            pairs,
            folds,
            openings,
        } = self;
        println!("{who}: run {:.4} s, verdict {verdict:.6} s", self.run());
        print!("  start {start:.4}, first polynomial {first:.4}, fold at u_0 {fold_at_u_0:.4}, ");
        println!("pairs {pairs:.4}, folds {folds:.4}, openings {openings:.4}");
    }
}

/// NAME L N COLUMNS ours SECONDS rust SECONDS ratio R, each side by its shortest time.
#[cfg(feature = "ours")]
struct Line {
    name: &'static str,
    seconds: [f64; 2],
}

#[cfg(feature = "ours")]
impl Line {
    fn new(name: &'static str) -> Self {
        let seconds = [f64::INFINITY; 2];
        Self { name, seconds }
    }

    /// One more time of ours and of the original.
    fn shortest(&mut self, seconds: [f64; 2]) {
        let both = self.seconds.iter_mut().zip(seconds);
        both.for_each(|(shortest, now)| *shortest = shortest.min(now));
    }

    fn print(&self, case: &Case) {
        let (shape, [ours, rust]) = (case.shape(), self.seconds);
        println!(
            "{} {} {} {} ours {ours:.7} rust {rust:.7} ratio {:.4}",
            self.name,
            shape.l_skip,
            shape.n_stack,
            shape.columns().count(),
            ours / rust
        );
    }
}

fn main() {
    let given: Vec<u32> = env::args()
        .skip(1)
        .map(|x| x.parse().expect("a number"))
        .collect();
    #[cfg(feature = "ours")]
    {
        for (l_skip, n_stack, matrices, width) in [(4, 14, 30, 10), (4, 10, 256, 16)] {
            verdict::print(&case(l_skip, n_stack, matrices, width));
        }
        for (l_skip, n_stack) in [(4, 14), (4, 16), (10, 8)] {
            let case = case(l_skip, n_stack, 30, 10);
            prover::print(&case);
            first::print_openings(&case);
        }
        first::print_one_column();
        for matrices in [256, 1_024, 4_096] {
            plan::print(matrices);
        }
        let lists: [(u32, &[u32]); 4] = [
            (256, &[1]),
            (256, &[16]),
            (4_096, &[1]),
            (4_096, &[0, 1, 2]),
        ];
        for (matrices, widths) in lists {
            unsorted::print(matrices, widths);
        }
    }
    let [l_skip, n_stack, matrices, width, runs] = given.try_into().unwrap_or([4, 14, 30, 10, 3]);
    let case = case(l_skip, n_stack, matrices, width);
    println!(
        "l_skip {l_skip}, n_stack {n_stack}: {} columns in {} stack columns; CPU time of one thread",
        case.shape().columns().count(),
        case.committed.width()
    );
    let sent = original::sent(&case);
    for _ in 0..runs {
        let (rust, returned) = original::run(&case, true);
        assert_eq!(returned.first, sent.first);
        assert_eq!(returned.pairs, sent.pairs);
        assert_eq!(returned.openings, sent.openings);
        let rust_verdict = verdict::original(&case, &sent);
        rust.print("Rust", rust_verdict);
        #[cfg(feature = "ours")]
        {
            let ours = ours::run(&case, &returned);
            let ours_verdict = verdict::ours(&case, &sent);
            ours.print("ours", ours_verdict);
            println!(
                "ours / Rust: run {:.3}, verdict {:.3}",
                ours.run() / rust.run(),
                ours_verdict / rust_verdict
            );
        }
    }
}

/// One commitment, heights spread over all but the tallest, every second matrix flagged.
fn case(l_skip: u32, n_stack: u32, matrices: u32, width: u32) -> Case {
    let top = l_skip + n_stack;
    let lowest = 2.min(top.saturating_sub(1));
    let spread = (top - lowest).max(1);
    let mut list: Vec<_> = (0..matrices)
        .map(|i| matrix(width, lowest + i * 7_919 % spread, (i + 1) % 2))
        .collect();
    list.sort_by_key(|m| std::cmp::Reverse(m.log_height));
    let shape = Shape::new(l_skip, n_stack, vec![list]);
    Case::new(&mut Rng::new(9), &shape, false)
}
