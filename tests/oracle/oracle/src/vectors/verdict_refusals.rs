//! A verdict's refusals, 1 to 10.
use std::collections::BTreeMap;

use super::{
    session::{Origin, Session},
    verdicts::checked_values,
};
use crate::{
    field::P,
    scope::{self, Lists, VerdictGiven},
};

/// One at a time; what was observed before stays.
pub fn add(s: &mut Session) {
    s.remark("refusals");
    checked_values(s);
    let mut held = Held {
        shape: vec![],
        slices: BTreeMap::new(),
    };
    held.set(s, "shape", &[0, 0, 1, 1, 1, 0, 0]);
    held.set(s, "lambda", &[5, 0, 0, 0]);
    held.set(s, "pairs", &[]);
    let elements = [
        ("claims", 2),
        ("first", 2),
        ("opened", 2),
        ("challenges", 9),
        ("point", 7),
    ];
    for (name, word) in elements {
        held.set(s, name, &[word, 0, 0, 0]);
    }
    for (name, word) in elements {
        for wrong in [
            &[word, 0, 0][..],
            &[word, 0, 0, 0].repeat(2),
            &[word, 0, P, 0],
        ] {
            held.set(s, name, wrong);
            held.refused(s);
        }
        held.set(s, name, &[word, 0, 0, 0]);
    }
    held.set(s, "pairs", &[0; 8]);
    held.refused(s);
    held.set(s, "pairs", &[]);
    held.set(s, "lambda", &[0, P, 0, 0]);
    held.refused(s);
    held.set(s, "lambda", &[5, 0, 0, 0]);
    for shape in [
        vec![11, 0, 1, 1, 1, 0, 0],
        vec![0, 0, 0],
        vec![0, 0, 2, 1, 2, 1, 0, 0, 1, 0, 0, 1, 0, 0],
        vec![0, 0, 1, 1, 1, 0, 2],
        vec![0, 0, 1, 1, 4_097, 0, 0],
        vec![0, 0, 1, 1, 1, 1, 0],
        vec![0, 3, 1, 2, 1, 2, 0, 1, 3, 0],
        vec![0, 2, 1, 2, 1, 0, 0, 1, 1, 0],
        vec![0, 0, 2, 1, 1, 1, 0, 0, 0, 0, 0],
    ] {
        held.set(s, "shape", &shape);
        held.refused(s);
    }
    s.ask(Origin::Document, "observed", "ok 2 0 0 0 3 0 0 0");
}

/// What the console holds for a verdict, on the one-row shape at first.
struct Held {
    shape: Vec<u32>,
    slices: BTreeMap<&'static str, Vec<u32>>,
}

impl Held {
    fn set(&mut self, s: &mut Session, name: &'static str, words: &[u32]) {
        s.set(name, words);
        if name == "shape" {
            self.shape = words.to_vec();
        } else {
            self.slices.insert(name, words.to_vec());
        }
    }

    /// Asks for the verdict, which document 01 refuses.
    fn refused(&self, s: &mut Session) {
        let [l_skip, n_stack, commitments, ref rest @ ..] = self.shape[..] else {
            unreachable!("a shape begins with three numbers");
        };
        let (counts, words) = rest.split_at(commitments as usize);
        let slice = |name| self.slices[name].as_slice();
        let lists = Lists {
            l_skip,
            n_stack,
            counts: counts.to_vec(),
            words: words.to_vec(),
        };
        let given = VerdictGiven {
            lists: &lists,
            r: slice("point"),
            lambda: slice("lambda").try_into().expect("four words"),
            challenges: slice("challenges"),
            claims: slice("claims"),
            first: slice("first"),
            pairs: slice("pairs"),
            openings: slice("opened"),
            observed: 8,
        };
        let number = scope::verdict(&given).expect_err("a refusal");
        s.refused("verdict", number);
    }
}
