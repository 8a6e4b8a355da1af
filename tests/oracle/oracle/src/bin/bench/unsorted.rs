//! Planning of matrices in whatever order, beside planning of the ordered list and the original's way.
use std::{cmp::Reverse, hint::black_box};

use oracle::{
    clock::timed_often,
    library::Library,
    original,
    ours::Ours,
    rng::Rng,
    shape::{matrix, triples, Matrix},
};

pub const L_SKIP: u32 = 4;
pub const N_STACK: u32 = 20;

/// Random lists, taken in turn: the same one again and again would be foreseen.
const RANDOM: usize = 200;

/// Each side is timed this often, in turn; its shortest time counts.
pub const RUNS: usize = 101;

/// Of these widths in turn, by falling log height, of which there are 25, and by falling width.
pub fn falling(matrices: u32, widths: &[u32]) -> Vec<Matrix> {
    let heights = L_SKIP + N_STACK + 1;
    let one = |(i, width): (u32, &u32)| matrix(*width, i % heights, i % 2);
    let mut list: Vec<Matrix> = (0..matrices).zip(widths.iter().cycle()).map(one).collect();
    list.sort_by_key(|m| Reverse((m.log_height, m.width)));
    list
}

/// So many matrices of these widths, in three orders.
pub fn print(matrices: u32, widths: &[u32]) {
    let mut list = falling(matrices, widths);
    let mut rng = Rng::new(11);
    let mut shuffled = || {
        rng.shuffle(&mut list);
        list.clone()
    };
    let random: Vec<_> = (0..RANDOM).map(|_| shuffled()).collect();
    print_one("random", &random);
    list.sort_by_key(|m| (m.log_height, m.width));
    print_one("rising", &[list]);
    print_one("falling", &[falling(matrices, widths)]);
}

/// unsorted L N MATRICES COLUMNS ORDER ours SECONDS plan SECONDS rust SECONDS ratio R plans R
/// `plan` is the library's planning of the ordered list, `rust` a stable sort and `StackedLayout::new`; `ratio` is of
/// ours to `rust`, `plans` of ours to `plan`.
fn print_one(order: &str, lists: &[Vec<Matrix>]) {
    let matrices = lists[0].len();
    let columns: usize = lists[0].iter().map(|m| m.width as usize).sum();
    let (mut arrivals, mut records) = (vec![0; matrices], vec![0; 2 * columns]);
    for list in lists {
        let planned = original::plan_unsorted(L_SKIP, N_STACK, list).expect("an accepted list");
        Ours.plan_unsorted(L_SKIP, N_STACK, &triples(list), &mut arrivals, &mut records);
        assert_eq!(arrivals, planned.0);
        assert_eq!(records, planned.1.records.as_flattened());
    }
    let given: Vec<_> = lists.iter().map(|list| triples(list)).collect();
    let ordered = triples(&original::sorted(&lists[0]).1);
    let (mut given, mut lists) = (given.iter().cycle(), lists.iter().cycle());
    let (mut ours, mut planning, mut rust) = (f64::INFINITY, f64::INFINITY, f64::INFINITY);
    for _ in 0..RUNS {
        ours = ours.min(timed_often(|| {
            let list = given.next().expect("a list");
            let answer = Ours.plan_unsorted(L_SKIP, N_STACK, list, &mut arrivals, &mut records);
            assert_eq!(answer.number, 0);
        }));
        planning = planning.min(timed_often(|| {
            let answer = Ours.plan(L_SKIP, N_STACK, &ordered, &mut records);
            assert_eq!(answer.number, 0);
        }));
        rust = rust.min(timed_often(|| {
            let (positions, sorted) = original::sorted(lists.next().expect("a list"));
            let layout = original::layout(L_SKIP, N_STACK, &sorted);
            black_box((positions, layout.expect("an accepted list")));
        }));
    }
    println!(
        "unsorted {L_SKIP} {N_STACK} {matrices} {columns} {order} ours {ours:.7} plan {planning:.7} rust {rust:.7} ratio {:.3} plans {:.2}",
        ours / rust,
        ours / planning
    );
}
