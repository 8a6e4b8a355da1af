//! Planning of matrices of one column each: the time of a matrix stays where there are more.
use std::hint::black_box;

use oracle::{clock::timed_often, library::Library, original, ours::Ours, shape::triples};

use crate::unsorted::{falling, L_SKIP, N_STACK, RUNS};

/// plan L N MATRICES ours SECONDS matrix SECONDS rust SECONDS ratio R
/// `matrix` is the library's time of one matrix, `rust` `StackedLayout::new`.
pub fn print(matrices: u32) {
    let list = falling(matrices, &[1]);
    let given = triples(&list);
    let mut records = vec![0; 2 * list.len()];
    let (mut ours, mut rust) = (f64::INFINITY, f64::INFINITY);
    for _ in 0..RUNS {
        ours = ours.min(timed_often(|| {
            let answer = Ours.plan(L_SKIP, N_STACK, &given, &mut records);
            assert_eq!(answer.number, 0);
        }));
        rust = rust.min(timed_often(|| {
            let layout = original::layout(L_SKIP, N_STACK, &list);
            black_box(layout.expect("an accepted list"));
        }));
    }
    println!(
        "plan {L_SKIP} {N_STACK} {matrices} ours {ours:.7} matrix {:.10} rust {rust:.7} ratio {:.3}",
        ours / f64::from(matrices),
        ours / rust
    );
}
