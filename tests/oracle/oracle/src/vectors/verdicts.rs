//! Verdicts: accepted, then damaged in one element, with both sides of 13 and 14.
use super::{
    session::{with_words, Origin, Session},
    verdict_refusals,
};
use crate::{
    field::*,
    original::{self, horner_eval, Outcome, Sent, Verdict},
    random::Case,
    rng::Rng,
    shape::{matrix, Shape},
};

/// From here on the first polynomial is a sparse one, to keep the file small.
const SPARSE_FROM: u32 = 4;

pub fn session(cases: &[Case]) -> Session {
    let mut s = Session::new("verdicts");
    checked_values(&mut s);
    for (index, case) in cases.iter().enumerate() {
        let mut rng = Rng::of_case(0x7E4D, index as u64);
        s.remark(&format!("verdict {index}"));
        verdicts_of_a_run(&mut s, &mut rng, case);
    }
    u_0_in_the_subgroup(&mut s);
    verdict_refusals::add(&mut s);
    s
}

/// What a verdict is given beside the shape.
pub struct Given {
    r: Vec<EF>,
    /// Lambda, then u_0 to u_n_stack.
    challenges: Vec<EF>,
    pub sent: Sent,
}

impl Given {
    /// Challenges are lambda, then u_0 to u_n_stack.
    pub fn new(r: &[EF], challenges: &[EF], sent: Sent) -> Self {
        Self {
            r: r.to_vec(),
            challenges: challenges.to_vec(),
            sent,
        }
    }

    pub fn honest(case: &Case) -> Self {
        Self {
            r: case.r.clone(),
            challenges: case.challenges(),
            sent: honest(case),
        }
    }

    fn verdict(&self, shape: &Shape) -> Verdict {
        original::verdict(shape, &self.sent, &self.r, &self.challenges)
    }
}

fn verdicts_of_a_run(s: &mut Session, rng: &mut Rng, case: &Case) {
    let shape = case.shape();
    let mut given = Given::honest(case);
    assert_eq!(given.verdict(shape).outcome, Outcome::Accepted);
    set_inputs(s, shape, &given);
    verdict(s, shape, &given, true);

    given.sent.claims[0] += rng.element();
    s.set("claims", &flat(&given.sent.claims));
    verdict(s, shape, &given, true);
    given.sent.claims = case.committed.claims(&case.r);
    s.set("claims", &flat(&given.sent.claims));

    let last = given.sent.openings.len() - 1;
    given.sent.openings[last] += rng.element();
    s.set("opened", &flat(&given.sent.openings));
    verdict(s, shape, &given, shape.l_skip < SPARSE_FROM);
    if let Some(pair) = given.sent.pairs.last_mut() {
        pair[rng.below(2) as usize] += rng.element();
        s.set("pairs", &flat(&given.sent.pairs.concat()));
        verdict(s, shape, &given, false);
    }
}

/// True claims, pairs and openings with the run's first polynomial, or a sparse one that the verdict
/// takes as well: the same sum over the subgroup and the same value at u_0.
fn honest(case: &Case) -> Sent {
    let (proof, _) = original::prove(&case.committed, &case.r, &case.challenges());
    let mut sent = Sent::of_proof(case.committed.claims(&case.r), proof);
    if case.shape().l_skip >= SPARSE_FROM {
        let first = &mut sent.first;
        let order = 1 << case.shape().l_skip;
        let value: EF = horner_eval(first, case.u[0]);
        let constant = first[0] + first[order];
        first.fill(EF::ZERO);
        first[0] = constant;
        first[1] = (value - constant) / case.u[0];
    }
    sent
}

fn set_inputs(s: &mut Session, shape: &Shape, given: &Given) {
    s.set_shape(shape);
    s.set("point", &flat(&given.r));
    s.set("lambda", &words(given.challenges[0]));
    set_sent(s, given);
    s.room(shape);
}

/// All that is given beside shape, r and lambda.
pub fn set_sent(s: &mut Session, given: &Given) {
    s.set("challenges", &flat(&given.challenges[1..]));
    s.set("claims", &flat(&given.sent.claims));
    s.set("first", &flat(&given.sent.first));
    s.set("pairs", &flat(&given.sent.pairs.concat()));
    s.set("opened", &flat(&given.sent.openings));
}

/// Asks for the verdict, and for the observed values if there are any: after 13 nothing is observed,
/// and what the verdict before it left stands.
pub fn verdict(s: &mut Session, shape: &Shape, given: &Given, observed: bool) {
    let verdict = given.verdict(shape);
    let answer = match verdict.outcome {
        Outcome::Accepted => String::from("yes"),
        Outcome::Refused(number, left, right) => {
            with_words(&format!("refused {number}"), &flat(&[left, right]))
        }
    };
    s.ask(Origin::Rust, "verdict", &answer);
    if observed && !verdict.observed.is_empty() {
        s.done("observed", &verdict.observed);
    }
}

/// On one column of one row.
pub fn checked_values(s: &mut Session) {
    let one_row = Shape::new(0, 0, vec![vec![matrix(1, 0, 0)]]);
    let given = Given {
        r: vec![constant(7)],
        challenges: vec![constant(5), constant(9)],
        sent: Sent::constants(&[2], &[2], &[2]),
    };
    set_inputs(s, &one_row, &given);
    s.ask(Origin::Document, "verdict", "yes");
    s.ask(Origin::Document, "observed", "ok 2 0 0 0 2 0 0 0");
    s.set("opened", &[3, 0, 0, 0]);
    s.ask(Origin::Document, "verdict", "refused 14 2 0 0 0 3 0 0 0");
    s.ask(Origin::Document, "observed", "ok 2 0 0 0 3 0 0 0");
    s.set("claims", &[1, 0, 0, 0]);
    s.ask(Origin::Document, "verdict", "refused 13 1 0 0 0 2 0 0 0");
    s.ask(Origin::Document, "observed", "ok 2 0 0 0 3 0 0 0");
}

/// No call gives 12: rows 5, 6 at u_0 = -1, where the opening is the second row itself.
fn u_0_in_the_subgroup(s: &mut Session) {
    let mut rng = Rng::new(0x5B);
    let shape = Shape::new(1, 0, vec![vec![matrix(1, 1, 1)]]);
    let committed = original::Committed::new(&shape, &[5, 6]);
    let r = rng.elements(1);
    let lambda = rng.element();
    let (proof, _) = original::prove(&committed, &r, &[lambda, constant(3)]);
    let given = Given {
        challenges: vec![lambda, constant(P - 1)],
        sent: Sent {
            openings: vec![constant(6)],
            ..Sent::of_proof(committed.claims(&r), proof)
        },
        r,
    };
    assert_eq!(given.verdict(&shape).outcome, Outcome::Accepted);
    s.remark("u_0 in the skip subgroup");
    set_inputs(s, &shape, &given);
    verdict(s, &shape, &given, true);
}
