//! Verdicts on the stored session: accepted, 13 and 14 with both sides, what was observed, and refusals.
use std::collections::HashMap;

use elements::element;
use legrudda::{verdict, Asked, Run};
use session::{answer, replay};
use shape::Shape;

mod elements;
mod session;
mod shape;

const NOTHING: [u32; 0] = [];

#[derive(Default)]
struct Session {
    shape: Shape,
    /// By the names of the session's lines.
    slices: HashMap<String, Vec<u32>>,
    observed: Vec<u32>,
    /// How many verdicts were accepted, were 13, were 14 and were refused by another number.
    tally: [usize; 4],
}

impl Session {
    fn asked(&self) -> Asked<'_> {
        let slice = |name| self.slices.get(name).map_or(&[][..], Vec::as_slice);
        Asked {
            l_skip: self.shape.l_skip,
            n_stack: self.shape.n_stack,
            counts: &self.shape.counts,
            lists: &self.shape.lists,
            r: slice("point"),
            lambda: element(slice("lambda")),
            challenges: slice("challenges"),
            claims: slice("claims"),
            coefficients: slice("first"),
            pairs: slice("pairs"),
            openings: slice("opened"),
        }
    }

    fn reply(&mut self, name: &str, numbers: &[u32]) -> String {
        match name {
            "shape" => self.shape = Shape::read(numbers),
            "room" => return self.room(),
            "verdict" => return self.verdict(),
            "observed" => return answer(Ok(&self.observed)),
            _ => {
                self.slices.insert(name.to_string(), numbers.to_vec());
            }
        }
        answer(Ok(NOTHING))
    }

    /// The lengths of a run's work buffers over the same lists; room for what a verdict observes.
    fn room(&mut self) -> String {
        let asked = self.asked();
        let Asked {
            l_skip,
            n_stack,
            counts,
            lists,
            r,
            lambda,
            ..
        } = asked;
        let run = Run::new(l_skip, n_stack, counts, lists, r, lambda);
        let lengths = run.work_buffers().map(<[u32]>::len);
        self.observed = vec![0; asked.observed_len()];
        answer(Ok(lengths))
    }

    fn verdict(&mut self) -> String {
        let mut observed = std::mem::take(&mut self.observed);
        let before = observed.clone();
        let result = verdict(&self.asked(), &mut observed);
        let number = result.map_or_else(|error| error.number(), |()| 0);
        if !matches!(number, 0 | 14) {
            assert_eq!(observed, before);
        }
        self.observed = observed;
        self.tally[match number {
            0 => 0,
            13 => 1,
            14 => 2,
            _ => 3,
        }] += 1;
        if result.is_ok() {
            return String::from("yes");
        }
        answer(result.map(|()| NOTHING))
    }
}

#[test]
fn stored_verdicts() {
    let mut session = Session::default();
    let replayed = replay("verdicts", |name, numbers| session.reply(name, numbers));
    assert_eq!(replayed, 696);
    assert_eq!(session.tally, [35, 34, 57, 26]);
}
