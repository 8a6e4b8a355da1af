//! verifier/stacked_reduction.rs: the verdict, with both sides of 13 and 14 and what was observed.
use stark_backend::{
    prover::stacked_pcs::StackedLayout,
    verifier::stacked_reduction::{verify_stacked_reduction, StackedReductionError},
};

use super::{config::Config, layouts, Given, Proof};
use crate::{
    field::{constant, element, elements, PrimeCharacteristicRing, TwoAdicField, EF, F},
    scope::VerdictGiven,
    shape::Shape,
};

/// What is sent to the verifier.
#[derive(Clone)]
pub struct Sent {
    pub claims: Vec<EF>,
    pub first: Vec<EF>,
    pub pairs: Vec<[EF; 2]>,
    pub openings: Vec<EF>,
}

impl Sent {
    pub fn of_proof(claims: Vec<EF>, proof: Proof) -> Self {
        Self {
            claims,
            first: proof.univariate_round_coeffs,
            pairs: proof.sumcheck_round_polys,
            openings: proof.stacking_openings.concat(),
        }
    }

    /// Elements of one word each, and no pair.
    pub fn constants(claims: &[u32], first: &[u32], openings: &[u32]) -> Self {
        let [claims, first, openings] =
            [claims, first, openings].map(|words| words.iter().map(|x| constant(*x)).collect());
        Self {
            claims,
            first,
            pairs: vec![],
            openings,
        }
    }
}

#[derive(Clone, Copy, Debug, PartialEq, Eq)]
pub enum Outcome {
    Accepted,
    /// 13 or 14, and both sides as the original's error holds them.
    Refused(u32, EF, EF),
}

pub struct Verdict {
    pub outcome: Outcome,
    pub observed: Vec<u32>,
    pub transcript: Given,
}

/// What is sent, in the forms that the original takes.
pub struct Prepared<'a> {
    shape: &'a Shape,
    layouts: Vec<StackedLayout>,
    proof: Proof,
    claims: Vec<Vec<Vec<EF>>>,
    flags: Vec<Vec<bool>>,
    powers: Vec<F>,
}

impl<'a> Prepared<'a> {
    pub fn new(shape: &'a Shape, sent: &Sent) -> Self {
        let layouts = layouts(shape);
        let proof = Proof {
            univariate_round_coeffs: sent.first.clone(),
            sumcheck_round_polys: sent.pairs.clone(),
            stacking_openings: openings_of_commitments(&layouts, &sent.openings),
        };
        Self::of_proof(shape, layouts, proof, &sent.claims)
    }

    /// A proof as it is.
    pub fn of_proof(
        shape: &'a Shape,
        layouts: Vec<StackedLayout>,
        proof: Proof,
        claims: &[EF],
    ) -> Self {
        let generator = F::two_adic_generator(shape.l_skip as usize);
        Self {
            shape,
            layouts,
            proof,
            claims: claims_of_traces(shape, claims),
            flags: shape.flags(),
            powers: generator.powers().take(1 << shape.l_skip).collect(),
        }
    }

    /// `verify_stacked_reduction`; challenges are lambda, then u_0 to u_n_stack.
    pub fn verdict(&self, r: &[EF], challenges: &[EF]) -> Verdict {
        let mut transcript = Given::new(challenges);
        let result = verify_stacked_reduction::<Config, Given>(
            &mut transcript,
            &self.proof,
            &self.layouts,
            &self.flags,
            self.shape.l_skip as usize,
            self.shape.n_stack as usize,
            &self.claims,
            r,
            &self.powers,
        );
        let outcome = match result {
            Ok(u) => {
                assert_eq!(u, challenges[1..]);
                Outcome::Accepted
            }
            Err(StackedReductionError::S0Mismatch { s_0, s_0_sum_eval }) => {
                Outcome::Refused(13, s_0, s_0_sum_eval)
            }
            Err(StackedReductionError::FinalSumMismatch { claim, final_sum }) => {
                Outcome::Refused(14, claim, final_sum)
            }
        };
        Verdict {
            outcome,
            observed: transcript.observed(),
            transcript,
        }
    }
}

pub fn verdict(shape: &Shape, sent: &Sent, r: &[EF], challenges: &[EF]) -> Verdict {
    Prepared::new(shape, sent).verdict(r, challenges)
}

/// The same of words that document 01 does not refuse up to 10.
pub fn verdict_by_words(given: &VerdictGiven) -> Verdict {
    let pairs = elements(given.pairs);
    let sent = Sent {
        claims: elements(given.claims),
        first: elements(given.first),
        pairs: pairs.chunks(2).map(|x| [x[0], x[1]]).collect(),
        openings: elements(given.openings),
    };
    let challenges = [vec![element(given.lambda)], elements(given.challenges)].concat();
    verdict(
        &Shape::of_words(given.lists),
        &sent,
        &elements(given.r),
        &challenges,
    )
}

/// The last commitment takes all that is left, so that a wrong count reaches the original.
fn openings_of_commitments(layouts: &[StackedLayout], openings: &[EF]) -> Vec<Vec<EF>> {
    let mut left = openings.to_vec();
    let mut out = vec![];
    for layout in layouts {
        let rest = left.split_off(layout.width().min(left.len()));
        out.push(std::mem::replace(&mut left, rest));
    }
    out.last_mut().expect("a commitment").extend(left);
    out
}

/// The original takes claims trace by trace, and for each trace its parts. The matrices of the first
/// commitment are the first parts; later commitments are further parts of the first trace, which
/// keeps their order. The last one takes all that is left.
fn claims_of_traces(shape: &Shape, claims: &[EF]) -> Vec<Vec<Vec<EF>>> {
    let mut left = claims.to_vec();
    let mut parts: Vec<Vec<EF>> = vec![];
    for m in shape.lists.iter().flatten() {
        let count = (m.width * (1 + m.flag)) as usize;
        let rest = left.split_off(count.min(left.len()));
        parts.push(std::mem::replace(&mut left, rest));
    }
    parts.last_mut().expect("a matrix").extend(left);
    let later = parts.split_off(shape.lists[0].len());
    let mut traces: Vec<Vec<Vec<EF>>> = parts.into_iter().map(|part| vec![part]).collect();
    traces[0].extend(later);
    traces
}
