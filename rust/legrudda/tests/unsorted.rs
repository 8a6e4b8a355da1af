//! Planning in whatever order: worked lists, refusals, and random lists against a stable sort. What is lent stands between
//! guards.
use std::cmp::Reverse;

use legrudda::{
    layout::{self, Plan, Record, Unsorted},
    Error,
};

/// Stack width, H and the number of columns; the arrival position of each place; the records.
fn line(l_skip: u32, n_stack: u32, list: &[u32]) -> String {
    let unsorted = match layout::plan_unsorted(l_skip, n_stack, list) {
        Ok(unsorted) => unsorted,
        Err(error) => return format!("refused {}", error.number()),
    };
    let plan = unsorted.plan;
    let sizes = [plan.width, plan.height, plan.columns];
    let numbers = sizes.iter().chain(&unsorted.arrivals).map(u32::to_string);
    let records = unsorted.records.iter().map(Record::to_string);
    numbers.chain(records).collect::<Vec<_>>().join(" ")
}

#[test]
fn worked_lists() {
    let five = [2, 0, 1, 1, 3, 0, 0, 7, 0, 1, 2, 1, 2, 2, 0];
    let positions = "3 8 6 2 1 4 3 0";
    let records = "00010000000000001800000000000000 00020000010000001000000000000000 \
                   00020010010000041000000000000000 00030000020000001000000000000000 \
                   00040000020000040000000000000000 00040010020000060000000000000000";
    assert_eq!(line(1, 2, &five), format!("{positions} {records}"));
    // One height: the wider first, then the earlier arrival; and the list as it came.
    let four = [1, 1, 0, 2, 1, 1, 0, 1, 0, 2, 1, 0];
    let records = "00000000000000000800000000000000 00000010000000020800000000000000 \
                   00010000010000000800000000000000 00010010010000020800000000000000 \
                   00020000020000000800000000000000";
    assert_eq!(line(0, 2, &four), format!("3 4 5 1 3 0 2 {records}"));
    let (plan, as_given) = layout::plan(0, 2, &four).unwrap();
    assert_eq!((plan.width, plan.height, plan.columns), (3, 4, 5));
    let matrices: Vec<_> = as_given.iter().map(|r| r.decode().mat_idx).collect();
    assert_eq!(matrices, [0, 1, 1, 3, 3]);
    let turned = line(1, 1, &[2, 0, 1, 1, 2, 0]);
    let records = "00000000000000001000000000000000 00010000010000000000000000000000 \
                   00010010010000020000000000000000";
    assert_eq!(turned, format!("2 4 3 1 0 {records}"));
    // The examples of 5 and of 6, which planning as given still refuses.
    let overflow = [1, 2, 0, 1, 3, 0];
    let planned = line(0, 3, &overflow);
    let records = "00000000000000001800000000000000 00010000010000001000000000000000";
    assert_eq!(planned, format!("2 8 2 1 0 {records}"));
    assert_eq!(layout::plan(0, 3, &overflow), Err(Error::LayoutRowOverflow));
    let rising = [1, 0, 0, 1, 1, 0];
    let planned = line(0, 2, &rising);
    let records = "00000000000000000800000000000000 00010000000000020000000000000000";
    assert_eq!(planned, format!("1 4 2 1 0 {records}"));
    assert_eq!(layout::plan(0, 2, &rising), Err(Error::HeightsRise));
    // No column, and no matrix.
    assert_eq!(line(0, 0, &[0, u32::MAX, 0]), "0 1 0 0");
    assert_eq!(line(0, 2, &[]), "0 4 0");
    assert_eq!(line(0, 2, &[1, 0, 0, 1, 3, 0]), "refused 4");
    assert_eq!(line(0, 2, &[1, 0, 0, 1]), "refused 9");
}

/// Both slices, each between two guards, all of them marks at first.
struct Lent {
    arrivals: Vec<u32>,
    records: Vec<Record>,
}

impl Lent {
    fn new(arrivals: usize, records: usize) -> Self {
        // A record of document 01's example, so that one which is written shows.
        let mark = layout::plan(1, 1, &[1, 2, 0, 2, 0, 1]).unwrap().1[2];
        Self {
            arrivals: vec![u32::MAX; arrivals + 2],
            records: vec![mark; records + 2],
        }
    }

    fn slices(&mut self) -> (&mut [u32], &mut [Record]) {
        let (arrivals, records) = (self.arrivals.len() - 1, self.records.len() - 1);
        (
            &mut self.arrivals[1..arrivals],
            &mut self.records[1..records],
        )
    }

    fn plan(&mut self, l_skip: u32, n_stack: u32, list: &[u32]) -> Result<Plan, Error> {
        let (arrivals, records) = self.slices();
        layout::plan_unsorted_into(l_skip, n_stack, list, arrivals, records)
    }

    /// Holds the slices to these entries, or to marks alone, and the guards to marks.
    fn check(&self, written: Option<(&[u32], &[Record])>) {
        let mut expected = Lent::new(self.arrivals.len() - 2, self.records.len() - 2);
        if let Some(written) = written {
            let (arrivals, records) = expected.slices();
            arrivals.copy_from_slice(written.0);
            records.copy_from_slice(written.1);
        }
        assert_eq!(self.arrivals, expected.arrivals);
        assert_eq!(self.records, expected.records);
    }
}

/// A number, and the lengths of both slices.
fn refused(number: u32, sizes: [u32; 2], list: &[u32], arrivals: usize, records: usize) {
    let mut lent = Lent::new(arrivals, records);
    let error = lent.plan(sizes[0], sizes[1], list).unwrap_err();
    assert_eq!(error.number(), number, "{sizes:?} {list:?}");
    lent.check(None);
}

#[test]
fn refusals_leave_both_slices() {
    let two = [1, 0, 0, 1, 1, 0];
    for sizes in [[11, 0], [0, 21], [10, 15], [u32::MAX, u32::MAX]] {
        refused(1, sizes, &two, 2, 2);
    }
    refused(1, [0, 2], &[0; 3 * 4097], 4097, 0);
    refused(1, [0, 2], &[1, 1, 0].repeat(4097), 4097, 4097);
    refused(1, [0, 2], &[1, 0, 0, 0, 1, 2], 2, 1);
    refused(2, [0, 2], &[1, 0, 0, 4096, 1, 0], 2, 4097);
    refused(2, [0, 2], &[u32::MAX, 0, 0, 2, 0, 0], 2, 1);
    refused(2, [0, 2], &[u32::MAX, u32::MAX, 1].repeat(2), 2, 1);
    refused(4, [0, 2], &[1, 0, 0, 1, 3, 0], 2, 2);
    refused(4, [0, 2], &[1, 0, 0, 1, u32::MAX, 0], 2, 2);
    refused(9, [0, 2], &[1, 0, 0, 1], 1, 1);
    refused(9, [0, 2], &[1, 0, 0, 1, 1], 2, 2);
    for (arrivals, records) in [(1, 2), (3, 2), (2, 1), (2, 3), (0, 0)] {
        refused(9, [0, 2], &two, arrivals, records);
    }
    // The lowest number.
    refused(1, [0, 2], &[9999, 9, 2, 1], 0, 0);
    refused(2, [0, 2], &[9999, 9, 0, 1], 0, 0);
    refused(4, [0, 2], &[1, 9, 0, 1], 0, 0);
}

/// splitmix64.
struct Rng(u64);

impl Rng {
    fn word(&mut self) -> u32 {
        self.0 = self.0.wrapping_add(0x9E37_79B9_7F4A_7C15);
        let z = (self.0 ^ (self.0 >> 30)).wrapping_mul(0xBF58_476D_1CE4_E5B9);
        let z = (z ^ (z >> 27)).wrapping_mul(0x94D0_49BB_1331_11EB);
        (z >> 32) as u32
    }

    fn below(&mut self, n: u32) -> u32 {
        self.word() % n
    }
}

/// Widths below `widths`, heights that recur, and matrices of width 0 with any word as their log height, now and then one that
/// others have.
fn drawn(rng: &mut Rng, top: u32, matrices: u32, widths: u32) -> Vec<[u32; 3]> {
    let heights = 1 + rng.below(top + 1);
    let one = |_| {
        let (width, log_height) = (rng.below(widths), rng.below(heights));
        let log_height = match width {
            0 if rng.below(2) == 0 => rng.word(),
            _ => log_height,
        };
        [width, log_height, rng.below(2)]
    };
    (0..matrices).map(one).collect()
}

#[test]
fn random_lists() {
    let mut rng = Rng(11);
    for case in 0..600 {
        let (l_skip, n_stack) = (rng.below(5), rng.below(6));
        let (matrices, widths) = match case {
            0 => (4096, 2),
            100 | 200 => (257 + rng.below(1000), 4),
            _ if case % 20 == 0 => (256, 4),
            _ => (rng.below(24), 4),
        };
        let list = drawn(&mut rng, l_skip + n_stack, matrices, widths);

        let mut sorted: Vec<_> = (0..).zip(&list).collect();
        sorted.sort_by_key(|(_, matrix)| Reverse((matrix[1], matrix[0])));
        let arrivals: Vec<u32> = sorted.iter().map(|(position, _)| *position).collect();
        let ordered: Vec<u32> = sorted.iter().flat_map(|(_, matrix)| **matrix).collect();
        let (plan, records) = layout::plan(l_skip, n_stack, &ordered).unwrap();

        let list = list.concat();
        let mut lent = Lent::new(arrivals.len(), records.len());
        assert_eq!(lent.plan(l_skip, n_stack, &list), Ok(plan));
        lent.check(Some((&arrivals, &records)));
        assert_eq!(layout::ordered(&list, &arrivals), ordered);
        let unsorted = Unsorted {
            plan,
            arrivals,
            records,
        };
        assert_eq!(
            layout::plan_unsorted(l_skip, n_stack, &list),
            Ok(unsorted.clone())
        );
        // A list in order is planned as given.
        let in_order = Unsorted {
            arrivals: (0..matrices).collect(),
            ..unsorted
        };
        let planned = layout::plan_unsorted(l_skip, n_stack, &ordered);
        assert_eq!(planned, Ok(in_order));
    }
}
