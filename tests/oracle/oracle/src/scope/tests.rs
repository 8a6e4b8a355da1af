//! Document 01's table, row by row, with its examples; then the order of the numbers.
use super::*;
use crate::{
    field::{canonical, constant, flat, words, PrimeCharacteristicRing, TwoAdicField, F, P},
    original::{self, Outcome, Sent},
    random,
    record::digits,
    rng::Rng,
    shape::{matrix, triples, Shape},
};

fn number<T>(answer: Answer<T>) -> u32 {
    answer.err().unwrap_or(0)
}

fn columns(list: &[u32]) -> usize {
    list.chunks_exact(3).map(|t| t[0] as usize).sum()
}

/// The planning call with a slice of the right length for the records.
fn plan(l_skip: u32, n_stack: u32, list: &[u32]) -> u32 {
    number(planning(l_skip, n_stack, list, 2 * columns(list)))
}

#[test]
fn row_1_limits_and_flags() {
    assert_eq!(plan(11, 0, &[1, 0, 0]), 1);
    assert_eq!(plan(10, 14, &[1, 0, 0]), 0);
    assert_eq!(plan(10, 15, &[1, 0, 0]), 1);
    assert_eq!(plan(3, 21, &[1, 0, 0]), 1);
    assert_eq!(plan(4, 20, &[1, 24, 0]), 0);
    assert_eq!(plan(u32::MAX, u32::MAX, &[]), 1);
    assert_eq!(plan(0, 0, &[1, 0, 2]), 1);
    assert_eq!(plan(0, 0, &[0, 0, 2]), 1);
    assert_eq!(plan(0, 0, &[0; 3 * 4_096]), 0);
    assert_eq!(plan(0, 0, &[0; 3 * 4_097]), 1);
    // One column each; then a matrix more, with a column and without.
    let most = [1, 0, 0].repeat(4_096);
    assert_eq!(plan(0, 12, &most), 0);
    assert_eq!(plan(0, 12, &[&most[..], &[1, 0, 0]].concat()), 1);
    assert_eq!(plan(0, 12, &[&most[..], &[0, 0, 0]].concat()), 1);
    assert_eq!(plan(0, 12, &[&most[3..], &[2, 0, 0]].concat()), 2);
}

#[test]
fn row_1_commitments() {
    let plans = |counts: &[u32], words: &[u32]| {
        let lists = Lists {
            l_skip: 0,
            n_stack: 0,
            counts: counts.to_vec(),
            words: words.to_vec(),
        };
        number(lists.plans())
    };
    let one = [1, 0, 0];
    assert_eq!(plans(&[], &[]), 1);
    assert_eq!(plans(&[1; 16], &one.repeat(16)), 0);
    assert_eq!(plans(&[1; 17], &one.repeat(17)), 1);
    assert_eq!(plans(&[2, 1], &one.repeat(3)), 0);
    let most = [&[4_096][..], &[1; 15]].concat();
    assert_eq!(plans(&most, &one.repeat(4_111)), 0);
    assert_eq!(plans(&[4_097], &one.repeat(4_097)), 1);
    assert_eq!(plans(&[4_097], &one), 1);
    assert_eq!(plans(&[1, 2], &one.repeat(3)), 1);
    assert_eq!(plans(&[1, 0], &one), 1);
    assert_eq!(plans(&[0], &[]), 7);
    assert_eq!(plans(&[1], &[]), 7);
}

#[test]
fn row_2_columns() {
    assert_eq!(plan(0, 0, &[4_096, 0, 0]), 0);
    assert_eq!(plan(0, 0, &[4_097, 0, 0]), 2);
    assert_eq!(plan(0, 0, &[4_097, 99, 0]), 2);
    assert_eq!(plan(0, 0, &[u32::MAX, 0, 0, u32::MAX, 0, 0]), 2);
}

#[test]
fn row_3_heights() {
    let stack = |list: &[u32]| number(stacking(0, 2, list, &[1, 2, 3], 4));
    assert_eq!(stack(&[1, 3, 0]), 3);
    assert_eq!(stack(&[1, 0, 0]), 3);
    assert_eq!(stack(&[1, 1, 0, 0, 3, 0]), 3);
    assert_eq!(stack(&[1, 8, 0, 0, 3, 0]), 3);
    assert_eq!(number(stacking(0, 2, &[1, 1, 0], &[5], 4)), 0);
}

#[test]
fn rows_4_5_and_6() {
    assert_eq!(plan(1, 1, &[1, 3, 0]), 4);
    assert_eq!(plan(0, 3, &[1, 2, 0, 1, 3, 0]), 5);
    assert_eq!(plan(0, 2, &[1, 0, 0, 1, 1, 0]), 6);
    // As the walk meets them.
    assert_eq!(plan(0, 3, &[1, 2, 0, 1, 3, 0, 1, 9, 0]), 5);
    assert_eq!(plan(0, 3, &[1, 9, 0, 1, 2, 0, 1, 3, 0]), 4);
    // A matrix of width 0 is passed over.
    assert_eq!(plan(0, 2, &[0, 99, 0]), 0);
    assert_eq!(plan(0, 2, &[1, 0, 0, 0, 1, 0, 1, 0, 0]), 0);
    assert_eq!(plan(0, 2, &[1, 0, 0, 0, 2, 0, 1, 1, 0]), 6);
}

#[test]
fn row_7_no_column() {
    assert_eq!(plan(0, 0, &[0, 0, 0]), 0);
    assert_eq!(number(stacking(0, 0, &[0, 1, 0], &[], 0)), 7);
    assert_eq!(number(stacking(0, 0, &[], &[], 0)), 7);
}

#[test]
fn row_9_lengths() {
    for records in [0, 1, 3, 4] {
        assert_eq!(number(planning(0, 0, &[1, 0, 0], records)), 9);
    }
    assert_eq!(number(planning(0, 0, &[1, 0, 0], 2)), 0);
    assert_eq!(number(planning(0, 0, &[1, 0, 0, 5], 2)), 9);
    assert_eq!(number(stacking(0, 0, &[1, 1, 0], &[], 1)), 9);
    assert_eq!(number(stacking(0, 0, &[1, 1, 0], &[1], 2)), 9);
    assert_eq!(number(view(0, 0, &[1, 0, 0], 5, Some(&[]))), 9);
}

#[test]
fn row_10_words() {
    assert_eq!(number(stacking(0, 0, &[1, 1, 0], &[P], 1)), 10);
    assert_eq!(number(stacking(0, 0, &[1, 1, 0], &[P - 1], 1)), 0);
}

#[test]
fn row_11_matrix_and_column() {
    assert_eq!(number(get(0, 0, &[1, 0, 0], 0, 0)), 0);
    assert_eq!(number(get(0, 0, &[1, 0, 0], 0, 1)), 11);
    assert_eq!(number(get(0, 0, &[1, 0, 0, 1, 0, 0], 0, 1)), 11);
    assert_eq!(number(get(0, 0, &[1, 0, 0], 1, 0)), 11);
    assert_eq!(number(view(0, 0, &[0, 0, 0], 0, None)), 11);
    assert_eq!(number(view(0, 0, &[1, 0, 0, 0, 0, 0], 1, None)), 11);
}

/// Document 02, C-14: matrix and stack column past 8 bits, and the log height in the top bits.
#[test]
fn records_past_256_matrices() {
    let record = |l_skip, n_stack, list: &[u32], matrix, column| {
        let place = get(l_skip, n_stack, list, matrix, column).expect("a column");
        digits(place.record())
    };
    let most = [1, 0, 0].repeat(4_096);
    for (matrix, wanted) in [
        (256, "01000001000000000000000000000000"),
        (699, "02bb0002bb0000000000000000000000"),
        (4_095, "0fff000fff0000000000000000000000"),
    ] {
        assert_eq!(record(0, 0, &most, matrix, 0), wanted);
    }
    assert_eq!(number(get(0, 0, &most, 4_096, 0)), 11);
    let wide = record(0, 0, &[4_096, 0, 0], 0, 4_095);
    assert_eq!(wide, "0000ffffff0000000000000000000000");
    let last_row = record(0, 12, &most, 4_095, 0);
    assert_eq!(last_row, "0fff000000000fff0000000000000000");
    let tall = record(4, 20, &[2, 24, 0], 0, 1);
    assert_eq!(tall, "0000001001000000c000000000000000");
}

/// One column of one row, at l_skip 0 and n_stack 0.
struct OneColumn {
    input: RunInput,
    work: [Vec<u32>; 4],
}

impl OneColumn {
    fn new() -> Self {
        let shape = Shape::new(0, 0, vec![vec![matrix(1, 0, 0)]]);
        Self {
            input: RunInput {
                lists: shape.by_words(),
                r: vec![0; 4],
                lambda: [0; 4],
                matrices: vec![0],
            },
            work: [0; 4].map(|_| vec![0; 4]),
        }
    }

    fn call(&self, turn: Turn, call: Call, u: [u32; 4]) -> u32 {
        let given = RunGiven {
            input: &self.input,
            challenge: u,
            work: WorkBuffers::of(&self.work),
            coefficients: 4,
            openings: 4,
        };
        number(run_call(turn, call, &given))
    }
}

#[test]
fn rows_8_9_and_10_in_a_run() {
    let two = [2, 0, 0, 0];
    let mut run = OneColumn::new();
    assert_eq!(run.call(Turn::Start, Call::Pair(1), two), 8);
    assert_eq!(run.call(Turn::Finished, Call::Start, two), 0);
    assert_eq!(run.call(Turn::FoldAtU0, Call::FoldAtU0, two), 0);
    assert_eq!(run.call(Turn::FoldAtU0, Call::FoldAtU0, [1, 0, 0, 0]), 0);
    assert_eq!(run.call(Turn::FoldAtU0, Call::FoldAtU0, [1, 1, 0, 0]), 0);
    assert_eq!(run.call(Turn::FoldAtU0, Call::FoldAtU0, [P, 0, 0, 0]), 10);
    assert_eq!(run.call(Turn::Openings, Call::Openings, two), 0);
    assert_eq!(Turn::after(Call::FoldAtU0, 0), Turn::Openings);
    run.input.r.pop();
    assert_eq!(run.call(Turn::FoldAtU0, Call::FoldAtU0, two), 9);
    assert_eq!(run.call(Turn::FoldAtU0, Call::Openings, two), 8);
}

/// Document 02, C-15: the first polynomial between start and the fold at u_0, and the openings at any time.
#[test]
fn document_02_round_zero() {
    let zero = [0; 4];
    let mut run = OneColumn::new();
    for (calls, turn) in (0..).zip([
        Turn::Start,
        Turn::First,
        Turn::FoldAtU0,
        Turn::Pair(1),
        Turn::Fold(1),
        Turn::Pair(2),
        Turn::Fold(2),
        Turn::Openings,
        Turn::Finished,
    ]) {
        assert_eq!(Turn::after_calls(calls, 2), turn);
        let due = turn == Turn::First;
        assert_eq!(run.call(turn, Call::First, zero), if due { 0 } else { 8 });
    }
    assert_eq!(Turn::after_calls(3, 0), Turn::Openings);
    assert_eq!(Turn::after(Call::Start, 0), Turn::First);
    assert_eq!(Turn::after(Call::First, 0), Turn::FoldAtU0);
    assert_eq!(run.call(Turn::First, Call::FoldAtU0, zero), 8);

    let first = |run: &OneColumn| run.call(Turn::First, Call::First, zero);
    let both = |run: &OneColumn| [first(run), number(column_openings(&run.input, 4))];
    assert_eq!(both(&run), [0, 0]);
    for out in [0, 3, 5, 8] {
        assert_eq!(number(column_openings(&run.input, out)), 9);
    }
    // No work buffer is looked at.
    run.work = [0; 4].map(|_| vec![P; 3]);
    assert_eq!(both(&run), [0, 0]);
    run.input.lambda[3] = P;
    assert_eq!(both(&run), [10, 10]);
    assert_eq!(run.call(Turn::FoldAtU0, Call::First, zero), 8);
    run.input.matrices.push(0);
    assert_eq!(both(&run), [9, 9]);
    run.input.lists.words[0] = 0;
    assert_eq!(both(&run), [7, 7]);
}

#[test]
fn subgroup_is_the_powers() {
    for l_skip in 0..=10 {
        let g = F::two_adic_generator(l_skip);
        for power in g.powers().take(1 << l_skip) {
            assert!(in_skip_subgroup(l_skip as u32, words(power.into())));
        }
        let outside = F::two_adic_generator(l_skip + 1);
        assert!(!in_skip_subgroup(l_skip as u32, words(outside.into())));
        assert!(!in_skip_subgroup(l_skip as u32, [0; 4]));
    }
}

#[test]
fn rows_13_and_14_are_the_originals() {
    let shape = Shape::new(0, 0, vec![vec![matrix(1, 0, 0)]]);
    let outcome = |claim, coefficient, opening| {
        let sent = Sent::constants(&[claim], &[coefficient], &[opening]);
        let challenges = [constant(5), constant(9)];
        original::verdict(&shape, &sent, &[constant(7)], &challenges)
    };
    let refused = |number, left, right| Outcome::Refused(number, constant(left), constant(right));
    let s_0 = outcome(1, 2, 2);
    assert_eq!(s_0.outcome, refused(13, 1, 2));
    assert!(s_0.observed.is_empty());
    let last = outcome(2, 2, 3);
    assert_eq!(last.outcome, refused(14, 2, 3));
    assert_eq!(last.observed, flat(&[constant(2), constant(3)]));
    assert_eq!(outcome(2, 2, 2).outcome, Outcome::Accepted);
}

/// The walk, written from document 01's words, against the original on every list of three matrices
/// of width 0 to 3 and log height up to one too tall. A falling list never overflows.
#[test]
fn walk_agrees_with_the_original() {
    for (l_skip, n_stack) in (0..=2).flat_map(|l| (0..=2).map(move |n| (l, n))) {
        let heights = l_skip + n_stack + 2;
        let one = |code: u32| matrix(code / heights, code % heights, 0);
        let kinds = 4 * heights;
        for code in 0..kinds.pow(3) {
            let list = [code % kinds, code / kinds % kinds, code / kinds / kinds].map(one);
            let words = list::triples(&triples(&list));
            let mine = list::walk(l_skip, n_stack, &words);
            assert!(list::check_falling(&words).is_err() || mine != Err(5));
            let mine = mine.map(|plan| original::Plan {
                width: plan.width as u32,
                height: plan.height as u32,
                records: plan.places.iter().map(Place::record).collect(),
            });
            let theirs = original::plan(l_skip, n_stack, &list);
            assert_eq!(mine, theirs, "{l_skip} {n_stack} {list:?}");
        }
    }
}

#[test]
fn document_02_unsorted() {
    let plan = |l_skip, n_stack, list: &[u32]| {
        let (arrivals, records) = (list.len() / 3, 2 * columns(list));
        number(unsorted_planning(l_skip, n_stack, list, arrivals, records))
    };
    // Document 01's examples of 5 and 6 are accepted.
    assert_eq!(plan(0, 3, &[1, 2, 0, 1, 3, 0]), 0);
    assert_eq!(plan(0, 2, &[1, 0, 0, 1, 1, 0]), 0);
    assert_eq!(plan(0, 0, &[0, u32::MAX, 0]), 0);
    assert_eq!(plan(0, 2, &[]), 0);
    assert_eq!(plan(0, 2, &[0; 3 * 4_096]), 0);
    assert_eq!(plan(0, 2, &[0; 3 * 4_097]), 1);
    assert_eq!(plan(0, 2, &[0, 0, 2]), 1);
    assert_eq!(plan(0, 2, &[4_096, 0, 0, 1, 9, 0]), 2);
    assert_eq!(plan(0, 2, &[1, 0, 0, 1, 3, 0, 1]), 4);
    assert_eq!(plan(0, 2, &[1, 0, 0, 1]), 9);
    for (arrivals, records) in [(0, 2), (2, 2), (1, 0), (1, 1), (1, 3), (1, 4)] {
        let answer = unsorted_planning(0, 2, &[1, 0, 0], arrivals, records);
        assert_eq!(number(answer), 9);
    }
}

/// The numbers of document 02's call are those of planning the list that the stable sort makes, and the
/// original plans it, on every list of three matrices of width 0 to 2 and log height up to one too tall.
#[test]
fn unsorted_numbers_are_those_of_the_sorted_list() {
    for (l_skip, n_stack) in (0..=1).flat_map(|l| (0..=2).map(move |n| (l, n))) {
        let heights = l_skip + n_stack + 2;
        let one = |code: u32| matrix(code / heights, code % heights, 0);
        let kinds = 3 * heights;
        for code in 0..kinds.pow(3) {
            let list = [code % kinds, code / kinds % kinds, code / kinds / kinds].map(one);
            let words = triples(&list);
            let mine = unsorted_planning(l_skip, n_stack, &words, 3, 2 * columns(&words));
            let (_, sorted) = original::sorted(&list);
            assert_eq!(number(mine), plan(l_skip, n_stack, &triples(&sorted)));
            let theirs = original::plan_unsorted(l_skip, n_stack, &list);
            assert_eq!(mine, theirs.map(|_| ()), "{l_skip} {n_stack} {list:?}");
        }
    }
}

#[test]
fn stacked_words_agree_with_the_original() {
    for case in 0..2_000 {
        let mut rng = Rng::of_case(0x57AC, case);
        let (l_skip, n_stack) = (rng.below(5), rng.below(5));
        let list = random::list(&mut rng, l_skip, n_stack, 5, 4);
        let cells = rng.words(random::cell_count(&list));
        let (q, layout) = original::stack(l_skip, n_stack, &list, &cells).unwrap();
        let with_heights = crate::shape::triples_with_heights(&list);
        let mine = stacking(l_skip, n_stack, &with_heights, &cells, q.values.len());
        assert_eq!(mine.unwrap(), canonical(&q.values));
        for (index, m) in list.iter().enumerate().filter(|(_, m)| m.width > 0) {
            let (start, length) = original::view(&layout, &q, index);
            let mine = view(l_skip, n_stack, &triples(&list), index as u32, None);
            assert_eq!(mine, Ok((start as u64, length as u64)), "{m:?}");
        }
    }
}

#[test]
fn plan_text_of_document_01() {
    let wanted = "2 4 3
00000000000000001000000000000000
00010000010000000000000000000000
00010010010000020000000000000000
";
    assert_eq!(plan_text(b"1 1\n1 2 0\n2 0 1\n"), wanted);
    assert_eq!(plan_text(b"1 1\n"), "0 4 0\n");
    for bad in [
        "",
        "\n",
        "1 1",
        "1  1\n",
        " 1 1\n",
        "1 1 \n",
        "+1 1\n",
        "1 -1\n",
        "1 1\n\n",
        "1\t1\n",
        "1 1 1\n",
        "1 1\n1 2\n",
        "1 a\n",
        "1 1\r\n",
        "4294967296 0\n",
    ] {
        assert_eq!(plan_text(bad.as_bytes()), "refused 1\n", "{bad:?}");
    }
    assert_eq!(
        plan_text(b"01 001\n00000000000001 2 0\n"),
        "1 4 1\n00000000000000001000000000000000\n"
    );
}
