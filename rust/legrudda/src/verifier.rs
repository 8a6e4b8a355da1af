use crate::{ffi, Element, Error};

/// What a verdict is asked about. Slices of elements are words, four an element.
///
/// ```
/// use legrudda::Asked;
///
/// // A column of one row, which holds 2.
/// let asked = Asked {
///     l_skip: 0,
///     n_stack: 0,
///     counts: &[1],
///     lists: &[1, 0, 0],
///     r: &[7, 0, 0, 0],
///     lambda: 5.into(),
///     challenges: &[9, 0, 0, 0],
///     claims: &[2, 0, 0, 0],
///     coefficients: &[2, 0, 0, 0],
///     pairs: &[],
///     openings: &[2, 0, 0, 0],
/// };
/// assert_eq!(legrudda::verdict(&asked, &mut [0; 8]), Ok(()));
/// ```
#[derive(Clone, Copy, Debug)]
pub struct Asked<'a> {
    /// The log of the skip subgroup's order, 0 to 10.
    pub l_skip: u32,
    /// The number of rounds, 0 to 20; l_skip + n_stack is at most 24.
    pub n_stack: u32,
    /// The number of matrices of each commitment.
    pub counts: &'a [u32],
    /// Three words a matrix, commitment after commitment.
    pub lists: &'a [u32],
    /// The point of the claims, n_stack + 1 elements.
    pub r: &'a [u32],
    /// The challenge that weighs the claims.
    pub lambda: Element,
    /// u_0 to u_n_stack.
    pub challenges: &'a [u32],
    /// The claims in lambda order: a plain and a rotated one for each column of a flagged matrix, else one.
    pub claims: &'a [u32],
    /// The first polynomial's 2^(l_skip + 1) − 1 coefficients, lowest first.
    pub coefficients: &'a [u32],
    /// For each round the values at 1 and 2.
    pub pairs: &'a [u32],
    /// One element a stack column.
    pub openings: &'a [u32],
}

impl Asked<'_> {
    /// The number of words that a verdict observes: those of coefficients, pairs and openings.
    ///
    /// ```
    /// # let asked = legrudda::Asked {
    /// #     l_skip: 0,
    /// #     n_stack: 0,
    /// #     counts: &[1],
    /// #     lists: &[1, 0, 0],
    /// #     r: &[7, 0, 0, 0],
    /// #     lambda: 5.into(),
    /// #     challenges: &[9, 0, 0, 0],
    /// #     claims: &[2, 0, 0, 0],
    /// #     coefficients: &[2, 0, 0, 0],
    /// #     pairs: &[],
    /// #     openings: &[2, 0, 0, 0],
    /// # };
    /// // One coefficient, no pair and one opening.
    /// assert_eq!(asked.observed_len(), 8);
    /// ```
    pub fn observed_len(&self) -> usize {
        self.coefficients.len() + self.pairs.len() + self.openings.len()
    }
}

/// The verdict: `Ok` is a yes. Coefficients, pairs and openings, in this order, are written to `observed` on a yes and on
/// [`Error::FinalSumMismatch`]; it has [`observed_len`](Asked::observed_len) words.
///
/// # What a yes means
///
/// A yes says that the weighted claims are the first polynomial's sum over the skip subgroup, and that the rounds lead from
/// its value at u_0 to the final sum of the openings. From that it follows that every claim is the opening of its trace
/// column, but for a few unlucky challenges, if two things hold that the verdict does not check: the openings are the true
/// values of the stacked columns, and lambda and each challenge were drawn after what they bind was fixed. A later
/// challenge (u_1 to u_n_stack) of 1 or 2 is always unlucky: with honest pairs a wrong first value then passes. So a yes of
/// a bring-up with the challenges 1, 2, 3 says no more of the claims than that their weighted sum is the first polynomial's.
///
/// # Errors
///
/// [`Error::S0Mismatch`] and [`Error::FinalSumMismatch`] with both sides, before them numbers 1, 2, 4 to 7, 9 and 10.
/// `observed` stays as it was, but for the second.
///
/// ```
/// use legrudda::{verdict, Asked, Error};
///
/// # let honest = Asked {
/// #     l_skip: 0,
/// #     n_stack: 0,
/// #     counts: &[1],
/// #     lists: &[1, 0, 0],
/// #     r: &[7, 0, 0, 0],
/// #     lambda: 5.into(),
/// #     challenges: &[9, 0, 0, 0],
/// #     claims: &[2, 0, 0, 0],
/// #     coefficients: &[2, 0, 0, 0],
/// #     pairs: &[],
/// #     openings: &[2, 0, 0, 0],
/// # };
/// // The column of one row of the example at `Asked`.
/// let mut observed = vec![0; honest.observed_len()];
/// assert_eq!(verdict(&honest, &mut observed), Ok(()));
/// assert_eq!(observed, [2, 0, 0, 0, 2, 0, 0, 0]);
///
/// let wrong = Asked { openings: &[3, 0, 0, 0], ..honest };
/// let (claim, final_sum) = (2.into(), 3.into());
/// assert_eq!(verdict(&wrong, &mut observed), Err(Error::FinalSumMismatch { claim, final_sum }));
/// ```
pub fn verdict(asked: &Asked, observed: &mut [u32]) -> Result<(), Error> {
    let observed_len = observed.len();
    // SAFETY: each pointer and count are of one slice, and `observed` is lent to this call alone.
    let judged = unsafe {
        ffi::legrudda_verdict(
            asked.l_skip,
            asked.n_stack,
            asked.counts.as_ptr(),
            asked.counts.len(),
            asked.lists.as_ptr(),
            asked.lists.len(),
            asked.r.as_ptr(),
            asked.r.len(),
            asked.lambda,
            asked.challenges.as_ptr(),
            asked.challenges.len(),
            asked.claims.as_ptr(),
            asked.claims.len(),
            asked.coefficients.as_ptr(),
            asked.coefficients.len(),
            asked.pairs.as_ptr(),
            asked.pairs.len(),
            asked.openings.as_ptr(),
            asked.openings.len(),
            observed.as_mut_ptr(),
            observed_len,
        )
    };
    Error::check(judged.number, judged.left, judged.right)
}
