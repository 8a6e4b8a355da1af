//! The verdict's refusals up to 10; 13 and 14 are the original's own.
use super::{commitments::Sizes, refuse_if, words::check_words, Answer, Lists};

#[derive(Clone, Copy)]
pub struct VerdictGiven<'a> {
    pub lists: &'a Lists,
    pub r: &'a [u32],
    pub lambda: [u32; 4],
    pub challenges: &'a [u32],
    pub claims: &'a [u32],
    pub first: &'a [u32],
    pub pairs: &'a [u32],
    pub openings: &'a [u32],
    /// Words of the slice lent for the observed values.
    pub observed: usize,
}

pub fn verdict(given: &VerdictGiven) -> Answer<()> {
    let lists = given.lists;
    let plans = lists.plans()?;
    let sizes = Sizes::of(lists.l_skip, &plans);
    lists.check_length()?;

    let rounds = lists.n_stack as usize;
    let coefficients = lists.coefficient_count();
    let right = given.r.len() == 4 * (rounds + 1)
        && given.challenges.len() == 4 * (rounds + 1)
        && given.claims.len() == 4 * lists.claim_count()
        && given.first.len() == 4 * coefficients
        && given.pairs.len() == 8 * rounds
        && given.openings.len() == 4 * sizes.width
        && given.observed == 4 * (coefficients + 2 * rounds + sizes.width);
    refuse_if(!right, 9)?;
    check_words(&[
        given.r,
        &given.lambda,
        given.challenges,
        given.claims,
        given.first,
        given.pairs,
        given.openings,
    ])
}
