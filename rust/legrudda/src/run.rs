use std::{collections::TryReserveError, convert::Infallible};

use crate::{ffi, field, room, widths, Element, Error};

/// A prover's run: its work buffers, its turn, and what every call of it is given.
///
/// The calls in turn are [`start`](Run::start), [`first_polynomial`](Run::first_polynomial),
/// [`fold_ple_evals`](Run::fold_ple_evals), for each round 1 to n_stack [`round_pair`](Run::round_pair) and
/// [`fold_mle_evals`](Run::fold_mle_evals), then [`openings`](Run::openings). Any other is refused as
/// [`Error::OutOfTurn`], but a start, which begins the run again, and [`column_openings`](Run::column_openings), which has
/// no turn. A refused call leaves the run as it was. Where the lists are wrong, no start is accepted, and a number of theirs
/// below 8 comes before that of the turn.
///
/// ```
/// # fn main() -> Result<(), legrudda::Error> {
/// use legrudda::Run;
///
/// // One column, with the rows 4 and 10, at l_skip 0 and n_stack 1; r is (7, 8) and lambda 5.
/// let mut run = Run::new(0, 1, &[1], &[1, 1, 0], &[7, 0, 0, 0, 8, 0, 0, 0], 5.into());
/// run.start()?;
/// run.first_polynomial(&[4, 10])?;
/// run.fold_ple_evals(&[4, 10], 3.into())?;
/// run.round_pair(1)?;
/// run.fold_mle_evals(1, 9.into())?;
/// // 4 + (10 − 4)·9
/// assert_eq!(run.openings()?, [58, 0, 0, 0]);
/// # Ok(())
/// # }
/// ```
#[derive(Clone, Debug)]
pub struct Run {
    l_skip: u32,
    n_stack: u32,
    counts: Vec<u32>,
    lists: Vec<u32>,
    r: Vec<u32>,
    lambda: Element,
    turn: u32,
    coefficients_len: usize,
    claims_len: usize,
    openings_len: usize,
    q_evals: Vec<u32>,
    eq_r: Vec<u32>,
    k_rot_r: Vec<u32>,
    eq_ub: Vec<u32>,
}

/// A round's quadratic by two values; the third follows from the claim.
///
/// ```
/// # use legrudda::Run;
/// # fn main() -> Result<(), legrudda::Error> {
/// # let mut run = Run::new(0, 1, &[1], &[1, 1, 0], &[7, 0, 0, 0, 8, 0, 0, 0], 5.into());
/// # run.start()?;
/// # run.first_polynomial(&[4, 10])?;
/// # run.fold_ple_evals(&[4, 10], 3.into())?;
/// use legrudda::RoundPair;
///
/// let RoundPair { at_1, at_2 } = run.round_pair(1)?;
/// let sent = [at_1.words, at_2.words].concat();
/// assert_eq!(sent, [80, 0, 0, 0, 368, 0, 0, 0]);
/// # Ok(())
/// # }
/// ```
#[derive(Clone, Copy, Debug, PartialEq, Eq)]
pub struct RoundPair {
    /// The value at 1.
    pub at_1: Element,
    /// The value at 2.
    pub at_2: Element,
}

/// Makes a call: the turn and what every call is given, what this one takes, the work buffers, and what this one writes.
/// Moves the turn to where the answer has it.
macro_rules! call {
    ($run:expr, $function:ident, ($($takes:expr),*), ($($writes:expr),*)) => {{
        // SAFETY: each pointer and count are of one slice, and those that are written are of the run's own buffers or of a
        // slice that this call alone has.
        let answer = unsafe {
            ffi::$function(
                $run.turn,
                $run.l_skip,
                $run.n_stack,
                $run.counts.as_ptr(),
                $run.counts.len(),
                $run.lists.as_ptr(),
                $run.lists.len(),
                $run.r.as_ptr(),
                $run.r.len(),
                $run.lambda,
                $($takes,)*
                $run.q_evals.as_mut_ptr(),
                $run.q_evals.len(),
                $run.eq_r.as_mut_ptr(),
                $run.eq_r.len(),
                $run.k_rot_r.as_mut_ptr(),
                $run.k_rot_r.len(),
                $run.eq_ub.as_mut_ptr(),
                $run.eq_ub.len(),
                $($writes,)*
            )
        };
        $run.turn = answer.turn;
        Error::check_number(answer.number).map(|()| answer)
    }};
}

impl Run {
    /// A run that is not started yet, with work buffers of the sizes that its lists ask for.
    ///
    /// `counts` has the number of matrices of each commitment, `lists` three words a matrix, `r` n_stack + 1 elements.
    /// Nothing is refused here: [`start`](Run::start) refuses what is wrong. The buffers take 16·2^n_stack bytes a stack
    /// column, 32·2^n_lift a distinct height (n_lift is what its log is above l_skip) and 16 a column; as with every
    /// `Vec`, the program ends where the memory is not there.
    ///
    /// ```
    /// use legrudda::{Error, Run};
    ///
    /// let r = [7, 0, 0, 0, 8, 0, 0, 0];
    /// let mut run = Run::new(0, 1, &[1], &[1, 1, 0], &r, 5.into());
    /// assert_eq!(run.start(), Ok(()));
    ///
    /// let mut short_of_a_word = Run::new(0, 1, &[1], &[1, 1, 0], &r[..7], 5.into());
    /// assert_eq!(short_of_a_word.start(), Err(Error::WrongLength));
    /// ```
    pub fn new(
        l_skip: u32,
        n_stack: u32,
        counts: &[u32],
        lists: &[u32],
        r: &[u32],
        lambda: Element,
    ) -> Self {
        let zeros = |len| Ok::<_, Infallible>(vec![0; len]);
        let Ok(run) = Self::with_memory(l_skip, n_stack, counts, lists, r, lambda, zeros);
        run
    }

    /// [`new`](Run::new) where the memory may not be there. The calls of the run take none but that of what they give: the
    /// coefficients of the first polynomial, the claims, and the openings, 16 bytes an element.
    ///
    /// # Errors
    ///
    /// What the allocator refuses. A system that promises more memory than it has can still end the program, here, where
    /// the buffers are first written.
    ///
    /// ```
    /// # fn main() -> Result<(), Box<dyn std::error::Error>> {
    /// use legrudda::Run;
    ///
    /// let r = [7, 0, 0, 0, 8, 0, 0, 0];
    /// let mut run = Run::try_new(0, 1, &[1], &[1, 1, 0], &r, 5.into())?;
    /// run.start()?;
    /// # Ok(())
    /// # }
    /// ```
    pub fn try_new(
        l_skip: u32,
        n_stack: u32,
        counts: &[u32],
        lists: &[u32],
        r: &[u32],
        lambda: Element,
    ) -> Result<Self, TryReserveError> {
        let zeros = |len| {
            let mut words = Vec::new();
            words.try_reserve_exact(len)?;
            words.resize(len, 0);
            Ok(words)
        };
        Self::with_memory(l_skip, n_stack, counts, lists, r, lambda, zeros)
    }

    /// All memory of the run is what `zeros` gives.
    fn with_memory<E>(
        l_skip: u32,
        n_stack: u32,
        counts: &[u32],
        lists: &[u32],
        r: &[u32],
        lambda: Element,
        zeros: impl Fn(usize) -> Result<Vec<u32>, E>,
    ) -> Result<Self, E> {
        // A start over lists that have no room is refused, whatever the buffers.
        let room = room(l_skip, n_stack, counts, lists).unwrap_or_default();
        let copied = |words: &[u32]| {
            let mut copy = zeros(words.len())?;
            copy.copy_from_slice(words);
            Ok(copy)
        };
        Ok(Self {
            l_skip,
            n_stack,
            counts: copied(counts)?,
            lists: copied(lists)?,
            r: copied(r)?,
            lambda,
            turn: 0,
            coefficients_len: room.coefficients,
            claims_len: room.claims,
            openings_len: room.openings,
            q_evals: zeros(room.q_evals)?,
            eq_r: zeros(room.eq_r)?,
            k_rot_r: zeros(room.k_rot_r)?,
            eq_ub: zeros(room.eq_ub)?,
        })
    }

    /// Begins the run, for the first time or again.
    ///
    /// # Errors
    ///
    /// Numbers 1, 2, 4 to 7, 9 and 10, for the lists, r and lambda.
    ///
    /// ```
    /// # use legrudda::Run;
    /// # fn main() -> Result<(), legrudda::Error> {
    /// # let mut run = Run::new(0, 1, &[1], &[1, 1, 0], &[7, 0, 0, 0, 8, 0, 0, 0], 5.into());
    /// run.start()?;
    /// run.first_polynomial(&[4, 10])?;
    /// run.fold_ple_evals(&[4, 10], 3.into())?;
    /// // Again: all of the run before is forgotten.
    /// run.start()?;
    /// assert_eq!(run.turn(), 1);
    /// # Ok(())
    /// # }
    /// ```
    pub fn start(&mut self) -> Result<(), Error> {
        call!(self, legrudda_start, (), ())?;
        Ok(())
    }

    /// The first polynomial of the run: 2^(l_skip + 1) − 1 coefficients, the constant one first, made of the stacked
    /// matrices, lent as one slice, commitment after commitment. Its sum over the skip subgroup is the weighted sum of the
    /// claims that [`column_openings`](Run::column_openings) gives, and its value at u_0 is the sum that the rounds go on with,
    /// where [`fold_ple_evals`](Run::fold_ple_evals) is lent the same matrices. It is sent before u_0 is drawn.
    ///
    /// Words between the cells of a column that is shorter than 2^l_skip rows count in it, though neither in its sum over the
    /// subgroup nor in the claims; [`layout::stacked_matrix`](crate::layout::stacked_matrix) leaves zeros there.
    ///
    /// # Errors
    ///
    /// Number 8 out of turn, 9 and 10 for the matrices.
    ///
    /// ```
    /// # fn main() -> Result<(), legrudda::Error> {
    /// use legrudda::{tables, Run};
    ///
    /// // One column of the rows 5 and 6 at l_skip 1, and r_0 = 3: 11/4 + 8·Z − 3/4·Z².
    /// let mut run = Run::new(1, 0, &[1], &[1, 1, 0], &[3, 0, 0, 0], 5.into());
    /// run.start()?;
    /// let first = run.first_polynomial(&[5, 6])?;
    /// assert_eq!(first, [503316483, 0, 0, 0, 8, 0, 0, 0, 1509949440, 0, 0, 0]);
    /// assert_eq!(tables::horner_eval(&first, 3.into()), 20.into());
    /// # Ok(())
    /// # }
    /// ```
    pub fn first_polynomial(&mut self, matrices: &[u32]) -> Result<Vec<u32>, Error> {
        let mut out = vec![0; self.coefficients_len];
        // SAFETY: each pointer and count are of one slice, and `out` is this call's alone.
        let answer = unsafe {
            ffi::legrudda_first_polynomial(
                self.turn,
                self.l_skip,
                self.n_stack,
                self.counts.as_ptr(),
                self.counts.len(),
                self.lists.as_ptr(),
                self.lists.len(),
                self.r.as_ptr(),
                self.r.len(),
                self.lambda,
                matrices.as_ptr(),
                matrices.len(),
                out.as_mut_ptr(),
                out.len(),
            )
        };
        self.turn = answer.turn;
        Error::check_number(answer.number).map(|()| out)
    }

    /// The openings of the trace columns at r, which are the claims of a verdict, in its order: a plain and a rotated one for
    /// each column of a flagged matrix, else one. They are made of the stacked matrices, at any time: the call has no turn and
    /// reads no work buffer.
    ///
    /// # Errors
    ///
    /// Numbers 1, 2, 4 to 7, 9 and 10, for the lists, r, lambda and the matrices: what
    /// [`first_polynomial`](Run::first_polynomial) gives, but 8.
    ///
    /// ```
    /// # fn main() -> Result<(), legrudda::Error> {
    /// use legrudda::Run;
    ///
    /// // A flagged column of the rows 4 and 10: its value at r, and that of the rows 10 and 4.
    /// let r = [7, 0, 0, 0, 8, 0, 0, 0];
    /// let run = Run::new(0, 1, &[1], &[1, 1, 1], &r, 5.into());
    /// assert_eq!(run.column_openings(&[4, 10])?, [52, 0, 0, 0, legrudda::P - 38, 0, 0, 0]);
    /// # Ok(())
    /// # }
    /// ```
    pub fn column_openings(&self, matrices: &[u32]) -> Result<Vec<u32>, Error> {
        let mut out = vec![0; self.claims_len];
        // SAFETY: each pointer and count are of one slice, and `out` is this call's alone.
        let number = unsafe {
            ffi::legrudda_column_openings(
                self.l_skip,
                self.n_stack,
                self.counts.as_ptr(),
                self.counts.len(),
                self.lists.as_ptr(),
                self.lists.len(),
                self.r.as_ptr(),
                self.r.len(),
                self.lambda,
                matrices.as_ptr(),
                matrices.len(),
                out.as_mut_ptr(),
                out.len(),
            )
        };
        Error::check_number(number).map(|()| out)
    }

    /// Folds the stacked matrices, lent as one slice, commitment after commitment, at u_0, which is any element: at the i-th
    /// power of the skip subgroup the fold leaves word i of each row of 2^l_skip words.
    ///
    /// # Errors
    ///
    /// Number 8 out of turn, 9 and 10 for the matrices and u_0.
    ///
    /// ```
    /// # use legrudda::Run;
    /// # fn main() -> Result<(), legrudda::Error> {
    /// # let mut run = Run::new(1, 0, &[1], &[1, 1, 0], &[7, 0, 0, 0], 5.into());
    /// use legrudda::{Error, P};
    ///
    /// // A row of two words: 5 at 1 and 6 at −1, the skip subgroup of order 2; 4 at 3.
    /// for (u_0, value) in [(1, 5), (P - 1, 6), (3, 4)] {
    ///     run.start()?;
    ///     run.first_polynomial(&[5, 6])?;
    ///     run.fold_ple_evals(&[5, 6], u_0.into())?;
    ///     assert_eq!(run.openings()?, [value, 0, 0, 0]);
    /// }
    /// run.start()?;
    /// assert_eq!(run.fold_ple_evals(&[5, 6], 1.into()), Err(Error::OutOfTurn));
    /// run.first_polynomial(&[5, 6])?;
    /// assert_eq!(run.fold_ple_evals(&[5, P], 1.into()), Err(Error::NotCanonical));
    /// # Ok(())
    /// # }
    /// ```
    pub fn fold_ple_evals(&mut self, matrices: &[u32], u_0: Element) -> Result<(), Error> {
        let (words, count) = (matrices.as_ptr(), matrices.len());
        call!(self, legrudda_fold_ple_evals, (words, count, u_0), ())?;
        Ok(())
    }

    /// The pair of a round, 1 to n_stack: its quadratic's values at 1 and 2.
    ///
    /// # Errors
    ///
    /// Number 8 out of turn.
    ///
    /// ```
    /// # use legrudda::Run;
    /// # fn main() -> Result<(), legrudda::Error> {
    /// # let mut run = Run::new(0, 1, &[1], &[1, 1, 0], &[7, 0, 0, 0, 8, 0, 0, 0], 5.into());
    /// use legrudda::Error;
    ///
    /// run.start()?;
    /// assert_eq!(run.round_pair(1), Err(Error::OutOfTurn));
    /// run.first_polynomial(&[4, 10])?;
    /// run.fold_ple_evals(&[4, 10], 3.into())?;
    /// let pair = run.round_pair(1)?;
    /// assert_eq!((pair.at_1, pair.at_2), (80.into(), 368.into()));
    /// # Ok(())
    /// # }
    /// ```
    pub fn round_pair(&mut self, round: u32) -> Result<RoundPair, Error> {
        let answer = call!(self, legrudda_round_pair, (round), ())?;
        Ok(RoundPair {
            at_1: answer.at_1,
            at_2: answer.at_2,
        })
    }

    /// Folds at a round's challenge, after the round's pair.
    ///
    /// # Errors
    ///
    /// Number 8 out of turn, 10 for the challenge.
    ///
    /// ```
    /// # use legrudda::Run;
    /// # fn main() -> Result<(), legrudda::Error> {
    /// # let mut run = Run::new(0, 1, &[1], &[1, 1, 0], &[7, 0, 0, 0, 8, 0, 0, 0], 5.into());
    /// # run.start()?;
    /// # run.first_polynomial(&[4, 10])?;
    /// # run.fold_ple_evals(&[4, 10], 3.into())?;
    /// run.round_pair(1)?;
    /// // The pair is sent, and then the challenge is drawn.
    /// run.fold_mle_evals(1, 9.into())?;
    /// let [q_evals, ..] = run.work_buffers();
    /// assert_eq!(q_evals, [58, 0, 0, 0, 0, 0, 0, 0]);
    /// # Ok(())
    /// # }
    /// ```
    pub fn fold_mle_evals(&mut self, round: u32, u: Element) -> Result<(), Error> {
        call!(self, legrudda_fold_mle_evals, (round, u), ())?;
        Ok(())
    }

    /// The openings, one element a stack column, as words.
    ///
    /// # Errors
    ///
    /// Number 8 out of turn.
    ///
    /// ```
    /// # use legrudda::Run;
    /// # fn main() -> Result<(), legrudda::Error> {
    /// # let mut run = Run::new(0, 1, &[1], &[1, 1, 0], &[7, 0, 0, 0, 8, 0, 0, 0], 5.into());
    /// # run.start()?;
    /// # run.first_polynomial(&[4, 10])?;
    /// # run.fold_ple_evals(&[4, 10], 3.into())?;
    /// # run.round_pair(1)?;
    /// run.fold_mle_evals(1, 9.into())?;
    /// assert_eq!(run.openings()?, [58, 0, 0, 0]);
    /// # Ok(())
    /// # }
    /// ```
    pub fn openings(&mut self) -> Result<Vec<u32>, Error> {
        let mut out = vec![0; self.openings_len];
        let (words, count) = (out.as_mut_ptr(), out.len());
        call!(self, legrudda_openings, (), (words, count))?;
        Ok(out)
    }

    /// [`openings`](Run::openings) as elements, a list for each commitment, as the original's `into_stacked_openings` has
    /// them. It is the same call, so a run that has answered one of the two is finished.
    ///
    /// # Errors
    ///
    /// Number 8 out of turn.
    ///
    /// ```
    /// # use legrudda::Run;
    /// # fn main() -> Result<(), legrudda::Error> {
    /// # let r = [7, 0, 0, 0, 8, 0, 0, 0];
    /// // A commitment of two stack columns and one of one.
    /// let mut run = Run::new(0, 1, &[1, 1], &[2, 1, 0, 1, 1, 0], &r, 5.into());
    /// run.start()?;
    /// run.first_polynomial(&[4, 10, 5, 6, 7, 7])?;
    /// run.fold_ple_evals(&[4, 10, 5, 6, 7, 7], 3.into())?;
    /// run.round_pair(1)?;
    /// run.fold_mle_evals(1, 9.into())?;
    /// assert_eq!(run.openings_by_commitment()?, [vec![58.into(), 14.into()], vec![7.into()]]);
    /// # Ok(())
    /// # }
    /// ```
    pub fn openings_by_commitment(&mut self) -> Result<Vec<Vec<Element>>, Error> {
        let openings = self.openings()?;
        let mut left = (0..).map(|index| field::load(&openings, index));
        let widths = self.stack_widths().into_iter();
        Ok(widths
            .map(|width| left.by_ref().take(width).collect())
            .collect())
    }

    /// The number of stack columns of each commitment, which is that of its openings; empty where a commitment has no plan
    /// or no column.
    ///
    /// ```
    /// # use legrudda::Run;
    /// # let r = [7, 0, 0, 0, 8, 0, 0, 0];
    /// let run = Run::new(0, 1, &[1, 1], &[2, 1, 0, 1, 1, 0], &r, 5.into());
    /// assert_eq!(run.stack_widths(), [2, 1]);
    /// ```
    pub fn stack_widths(&self) -> Vec<usize> {
        let (counts, lists) = (&self.counts, &self.lists);
        widths::stack_widths(self.l_skip, self.n_stack, counts, lists).unwrap_or_default()
    }

    /// The turn: the number of calls accepted since the run began, that of its start included.
    ///
    /// ```
    /// # use legrudda::Run;
    /// # fn main() -> Result<(), legrudda::Error> {
    /// # let mut run = Run::new(0, 1, &[1], &[1, 1, 0], &[7, 0, 0, 0, 8, 0, 0, 0], 5.into());
    /// assert_eq!(run.turn(), 0);
    /// run.start()?;
    /// run.first_polynomial(&[4, 10])?;
    /// run.fold_ple_evals(&[4, 10], 3.into())?;
    /// assert_eq!(run.turn(), 3);
    /// # Ok(())
    /// # }
    /// ```
    pub fn turn(&self) -> u32 {
        self.turn
    }

    /// The work buffers as they stand: q_evals, eq_r, k_rot_r and eq_ub.
    ///
    /// ```
    /// # use legrudda::Run;
    /// # fn main() -> Result<(), legrudda::Error> {
    /// # let mut run = Run::new(0, 1, &[1], &[1, 1, 0], &[7, 0, 0, 0, 8, 0, 0, 0], 5.into());
    /// run.start()?;
    /// let [q_evals, eq_r, k_rot_r, eq_ub] = run.work_buffers();
    /// assert_eq!([q_evals.len(), eq_r.len(), k_rot_r.len()], [8, 8, 8]);
    /// assert_eq!(eq_ub, [1, 0, 0, 0]);
    /// # Ok(())
    /// # }
    /// ```
    pub fn work_buffers(&self) -> [&[u32]; 4] {
        [&self.q_evals, &self.eq_r, &self.k_rot_r, &self.eq_ub]
    }
}
