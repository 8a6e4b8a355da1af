//! The differential driver: random inputs of every kind, the answers that the original and document 01
//! give, and the same calls of a library, compared word for word.
mod end_to_end;
mod field;
mod first;
mod large;
mod layout;
mod lent;
mod lists;
mod run_faults;
mod runs;
mod stacking;
mod tables;
mod tally;
mod unsorted;
mod verdicts;

pub use large::{large_cases, LargeCase};
pub use tally::Tally;

use crate::{library::Library, rng::Rng};

/// One case of a group: draws inputs, asks both sides and tells the tally.
type Case = fn(&mut Rng, Option<&dyn Library>, &mut Tally);

pub struct Group {
    pub name: &'static str,
    case: Case,
}

pub const GROUPS: [Group; 8] = [
    Group {
        name: "field",
        case: field::case,
    },
    Group {
        name: "tables",
        case: tables::case,
    },
    Group {
        name: "layout",
        case: layout::case,
    },
    Group {
        name: "stacking",
        case: stacking::case,
    },
    Group {
        name: "runs",
        case: runs::case,
    },
    Group {
        name: "verdicts",
        case: verdicts::case,
    },
    Group {
        name: "first",
        case: first::case,
    },
    Group {
        name: "end_to_end",
        case: end_to_end::case,
    },
];

impl Group {
    /// Runs the cases `first`, `first` + 1, .. of a seed; without a library the answers are only made.
    pub fn run(&self, library: Option<&dyn Library>, seed: u64, first: u64, cases: u64) -> Tally {
        let mut tally = Tally::default();
        for case in first..first + cases {
            tally.begin(case);
            (self.case)(&mut Rng::of_case(seed, case), library, &mut tally);
        }
        tally
    }
}
