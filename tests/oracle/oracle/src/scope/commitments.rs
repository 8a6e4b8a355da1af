//! The lists of a run or verdict: 1, 2, 4, 5, 6 and 7 over all commitments.
use super::{list::*, refuse_if, Answer, Plan};

pub const MAX_COMMITMENTS: usize = 16;

/// Sizes, the number of matrices of each commitment, and all triples one after the other.
#[derive(Clone, Debug, Default)]
pub struct Lists {
    pub l_skip: u32,
    pub n_stack: u32,
    pub counts: Vec<u32>,
    pub words: Vec<u32>,
}

impl Lists {
    /// One plan a commitment. 9 for the lists' own length is `check_length`.
    pub fn plans(&self) -> Answer<Vec<Plan>> {
        check_sizes(self.l_skip, self.n_stack)?;
        self.check_counts()?;
        let lists = self.commitments();
        lists.iter().try_for_each(|list| check_matrices(list))?;
        lists.iter().try_for_each(|list| check_columns(list))?;
        let plans: Vec<Plan> = lists
            .iter()
            .map(|list| walk(self.l_skip, self.n_stack, list))
            .collect::<Answer<_>>()?;
        lists.iter().try_for_each(|list| check_falling(list))?;
        refuse_if(plans.iter().any(|plan| plan.places.is_empty()), 7)?;
        Ok(plans)
    }

    /// 1 to 16 commitments, at most 4,096 matrices in the first and one in each after it.
    fn check_counts(&self) -> Answer<()> {
        let within = match &self.counts[..] {
            [] => false,
            [first, later @ ..] => {
                self.counts.len() <= MAX_COMMITMENTS
                    && *first as usize <= MAX_MATRICES
                    && later.iter().all(|count| *count == 1)
            }
        };
        refuse_if(!within, 1)
    }

    /// The whole triples that are there, as the counts deal them out; triples past the last
    /// commitment belong to none.
    fn commitments(&self) -> Vec<Vec<Triple>> {
        let mut left = triples(&self.words).into_iter();
        self.counts
            .iter()
            .map(|count| left.by_ref().take(*count as usize).collect())
            .collect()
    }

    /// 9 if the lists are not three words for each counted matrix.
    pub fn check_length(&self) -> Answer<()> {
        let matrices: u64 = self.counts.iter().map(|count| *count as u64).sum();
        refuse_if(self.words.len() as u64 != 3 * matrices, 9)
    }

    /// The claims: a (plain, rotated) pair for a flagged column, else one.
    pub fn claim_count(&self) -> usize {
        self.words
            .chunks_exact(3)
            .map(|t| t[0] as usize * (1 + t[2] as usize))
            .sum()
    }

    /// The coefficients of a first polynomial, of lists within the limits.
    pub fn coefficient_count(&self) -> usize {
        (2 << self.l_skip) - 1
    }
}

/// What the lengths of a run's and a verdict's slices follow from.
pub struct Sizes {
    /// Stack columns of all commitments.
    pub width: usize,
    pub columns: usize,
    /// n_lift of each distinct log height, ascending by log height.
    pub n_lifts: Vec<u32>,
}

impl Sizes {
    pub fn of(l_skip: u32, plans: &[Plan]) -> Self {
        let mut logs: Vec<u32> = plans
            .iter()
            .flat_map(|plan| plan.places.iter().map(|p| p.log_height))
            .collect();
        logs.sort();
        logs.dedup();
        Self {
            width: plans.iter().map(|plan| plan.width as usize).sum(),
            columns: plans.iter().map(|plan| plan.places.len()).sum(),
            n_lifts: logs.iter().map(|h| h.saturating_sub(l_skip)).collect(),
        }
    }
}
