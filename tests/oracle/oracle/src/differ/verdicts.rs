//! The verdict on runs of the original prover: as they were sent, or damaged in one place.
use super::{lent::Lent, Tally};
use crate::{
    field::{flat, words, EF, P},
    library::{Library, VerdictAnswer, Words},
    original::{self, Outcome, Proof},
    random::{self, Case},
    rng::Rng,
    scope::{self, Lists, VerdictGiven},
    shape::Shape,
};

/// What a verdict is given, by words.
#[derive(Clone, Debug)]
pub struct Drawn {
    lists: Lists,
    lambda: Words,
    /// r, challenges, claims, first polynomial, pairs, openings.
    slices: [Vec<u32>; 6],
    observed: usize,
}

/// Number and both sides.
const ANSWER: usize = 9;

pub fn case(rng: &mut Rng, library: Option<&dyn Library>, tally: &mut Tally) {
    let shape = random::run_shape(rng);
    let any_words = rng.once_in(2);
    let mut drawn = honest(&Case::new(rng, &shape, any_words));
    damage(rng, &mut drawn);
    judge(rng, &drawn, library, tally);
}

/// The verdict on a run as it was sent, and on so many damaged copies of it.
pub fn on_run(
    rng: &mut Rng,
    case: &Case,
    damaged: usize,
    library: Option<&dyn Library>,
    tally: &mut Tally,
) {
    let honest = honest(case);
    judge(rng, &honest, library, tally);
    for _ in 0..damaged {
        let mut drawn = honest.clone();
        damage(rng, &mut drawn);
        judge(rng, &drawn, library, tally);
    }
}

fn judge(rng: &mut Rng, drawn: &Drawn, library: Option<&dyn Library>, tally: &mut Tally) {
    let given = drawn.given();
    let (expected, observed) = match scope::verdict(&given) {
        Ok(()) => judged(&given),
        Err(number) => (VerdictAnswer::refused(number), None),
    };
    tally.number(expected.number);
    tally.words(ANSWER + drawn.observed);
    let mark = rng.next() as u32;
    let lent = Lent::new(drawn.observed, mark);
    let expected = (expected, lent.expected(observed.as_deref()));
    let ours = library.map(|library| drawn.asked(library, mark));
    tally.compare("verdict", drawn, expected, ours);
}

/// A run of the original prover, with its true claims.
fn honest(case: &Case) -> Drawn {
    let (r, challenges) = (&case.r, case.challenges());
    let (proof, _) = original::prove(&case.committed, r, &challenges);
    let claims = case.committed.claims(r);
    Drawn::of_proof(case.shape(), r, &challenges, &claims, &proof)
}

/// In two cases of three one thing is changed: a word of what is sent, a length, a list.
fn damage(rng: &mut Rng, drawn: &mut Drawn) {
    let slice = rng.below(6) as usize;
    match rng.below(12) {
        0..=3 => {}
        4..=6 => change(rng, &mut drawn.slices[slice]),
        7 => change(rng, &mut drawn.lambda),
        8 => {
            let word = rng.pick(&[P, P + 1, u32::MAX]);
            let at = rng.below(4) as usize;
            match drawn.slices[slice].get_mut(at) {
                Some(x) => *x = word,
                None => drawn.lambda[at] = word,
            }
        }
        9 => {
            let length = drawn.slices[slice].len();
            let by = rng.pick(&[1, 4]);
            let longer = rng.once_in(2);
            let length = if longer {
                length + by
            } else {
                length.saturating_sub(by)
            };
            drawn.slices[slice].resize(length, 0);
        }
        10 => drawn.observed = (drawn.observed + 1).saturating_sub(2 * rng.below(2) as usize),
        _ => damage_lists(rng, &mut drawn.lists),
    }
}

/// Another word below p in one place, if there is one.
fn change(rng: &mut Rng, words: &mut [u32]) {
    if !words.is_empty() {
        let at = rng.below(words.len() as u32) as usize;
        words[at] = (words[at] + rng.between(1, P - 1)) % P;
    }
}

fn damage_lists(rng: &mut Rng, lists: &mut Lists) {
    let Lists { counts, words, .. } = lists;
    match rng.below(6) {
        0 => lists.l_skip = rng.pick(&[lists.l_skip + 1, 11, u32::MAX]),
        1 => lists.n_stack = rng.pick(&[lists.n_stack + 1, 25, u32::MAX]),
        2 => {
            let at = rng.below(counts.len() as u32) as usize;
            counts[at] = rng.pick(&[0, counts[at] + 1, 4_096, 4_097]);
        }
        3 => words.push(1),
        _ => {
            let at = rng.below(words.len() as u32) as usize;
            words[at] = rng.pick(&[0, 1, words[at] + 1, 4_097, u32::MAX]);
        }
    }
}

/// The original's verdict and what it observes; 13 observes nothing.
fn judged(given: &VerdictGiven) -> (VerdictAnswer, Option<Vec<u32>>) {
    let verdict = original::verdict_by_words(given);
    match verdict.outcome {
        Outcome::Accepted => (VerdictAnswer::default(), Some(verdict.observed)),
        Outcome::Refused(number, left, right) => {
            let answer = VerdictAnswer {
                number,
                left: words(left),
                right: words(right),
            };
            (answer, (number == 14).then_some(verdict.observed))
        }
    }
}

/// The original returns no sides with a yes; the library's are the same element twice.
fn without_equal_sides(answer: VerdictAnswer) -> VerdictAnswer {
    if answer.number == 0 && answer.left == answer.right {
        return VerdictAnswer::default();
    }
    answer
}

impl Drawn {
    /// For the verdict on a proof; challenges are lambda, then u_0 to u_n_stack.
    pub fn of_proof(
        shape: &Shape,
        r: &[EF],
        challenges: &[EF],
        claims: &[EF],
        proof: &Proof,
    ) -> Self {
        let slices = [
            flat(r),
            flat(&challenges[1..]),
            flat(claims),
            flat(&proof.univariate_round_coeffs),
            flat(&proof.sumcheck_round_polys.concat()),
            flat(&proof.stacking_openings.concat()),
        ];
        Self {
            lists: shape.by_words(),
            lambda: words(challenges[0]),
            observed: slices[3..].iter().map(Vec::len).sum(),
            slices,
        }
    }

    /// A library's verdict, and the slice of the observed values with its guards.
    pub fn asked(&self, library: &dyn Library, mark: u32) -> (VerdictAnswer, Vec<u32>) {
        let mut out = Lent::new(self.observed, mark);
        let answer = library.verdict(&self.given(), out.slice());
        (without_equal_sides(answer), out.entries())
    }

    fn given(&self) -> VerdictGiven<'_> {
        let [r, challenges, claims, first, pairs, openings] = &self.slices;
        VerdictGiven {
            lists: &self.lists,
            r,
            lambda: self.lambda,
            challenges,
            claims,
            first,
            pairs,
            openings,
            observed: self.observed,
        }
    }
}
