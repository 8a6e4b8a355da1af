//! A run's calls: start, first polynomial, the fold at u_0, round pair, later fold and openings, with the turn; and the trace
//! columns' openings, which have none (document 02, C-15).
use std::ops::Range;

use super::{commitments::Sizes, refuse_if, words::check_words, Answer, Lists};

/// What the run expects next. Before an accepted start every other call is out of turn.
#[derive(Clone, Copy, Debug, PartialEq, Eq)]
pub enum Turn {
    Start,
    First,
    FoldAtU0,
    Pair(u32),
    Fold(u32),
    Openings,
    Finished,
}

#[derive(Clone, Copy, Debug, PartialEq, Eq)]
pub enum Call {
    Start,
    First,
    FoldAtU0,
    Pair(u32),
    Fold(u32),
    Openings,
}

impl Turn {
    /// After an accepted call; `n_stack` rounds come between the fold at u_0 and the openings.
    pub fn after(call: Call, n_stack: u32) -> Self {
        match call {
            Call::Start => Turn::First,
            Call::First => Turn::FoldAtU0,
            Call::Pair(round) => Turn::Fold(round),
            Call::Openings => Turn::Finished,
            Call::FoldAtU0 if n_stack > 0 => Turn::Pair(1),
            Call::Fold(round) if round < n_stack => Turn::Pair(round + 1),
            Call::FoldAtU0 | Call::Fold(_) => Turn::Openings,
        }
    }

    /// After so many accepted calls since and with the start, in a run of `n_stack` rounds.
    pub fn after_calls(calls: u32, n_stack: u32) -> Self {
        let openings = 2 * n_stack as u64 + 3;
        match calls {
            0 => Turn::Start,
            1 => Turn::First,
            2 => Turn::FoldAtU0,
            _ if calls as u64 == openings => Turn::Openings,
            _ if calls as u64 > openings => Turn::Finished,
            _ if calls % 2 == 1 => Turn::Pair(calls / 2),
            _ => Turn::Fold(calls / 2 - 1),
        }
    }

    /// Start needs no turn.
    fn allows(self, call: Call, n_stack: u32) -> bool {
        match call {
            Call::Start => true,
            Call::First => self == Turn::First,
            Call::FoldAtU0 => self == Turn::FoldAtU0,
            Call::Pair(round) => self == Turn::Pair(round) && round <= n_stack,
            Call::Fold(round) => self == Turn::Fold(round) && round <= n_stack,
            Call::Openings => self == Turn::Openings,
        }
    }
}

#[derive(Clone, Copy)]
pub struct WorkBuffers<'a> {
    pub q_evals: &'a [u32],
    pub eq_r: &'a [u32],
    pub k_rot_r: &'a [u32],
    pub eq_ub: &'a [u32],
}

impl<'a> WorkBuffers<'a> {
    /// In this order.
    pub fn of(buffers: &'a [impl AsRef<[u32]>; 4]) -> Self {
        let [q_evals, eq_r, k_rot_r, eq_ub] = buffers.each_ref().map(AsRef::as_ref);
        Self {
            q_evals,
            eq_r,
            k_rot_r,
            eq_ub,
        }
    }
}

/// What all calls of a run are given.
#[derive(Clone, Debug, Default)]
pub struct RunInput {
    pub lists: Lists,
    pub r: Vec<u32>,
    pub lambda: [u32; 4],
    /// Taken by the first polynomial and the fold at u_0.
    pub matrices: Vec<u32>,
}

/// All that a call of a run is given beside the turn; what a call does not take is not looked at.
#[derive(Clone, Copy)]
pub struct RunGiven<'a> {
    pub input: &'a RunInput,
    /// Taken by both folds.
    pub challenge: [u32; 4],
    pub work: WorkBuffers<'a>,
    /// Words of the slices lent to the first polynomial and to the openings.
    pub coefficients: usize,
    pub openings: usize,
}

/// The turn after an accepted call, or the number. A refused call leaves the turn where it was.
pub fn run_call(turn: Turn, call: Call, given: &RunGiven) -> Answer<Turn> {
    let RunInput {
        lists, r, lambda, ..
    } = given.input;
    let plans = lists.plans()?;
    refuse_if(!turn.allows(call, lists.n_stack), 8)?;
    let sizes = Sizes::of(lists.l_skip, &plans);
    lists.check_length()?;
    check_lengths(call, given, &sizes)?;
    check_words(&[r, lambda])?;
    check_words(&words_taken(call, given, &sizes))?;
    Ok(Turn::after(call, lists.n_stack))
}

/// The number of the trace columns' openings: a call without a turn and without work buffers, lent so many words for its claims.
pub fn column_openings(input: &RunInput, out: usize) -> Answer<()> {
    let lists = &input.lists;
    let plans = lists.plans()?;
    lists.check_length()?;
    let sizes = Sizes::of(lists.l_skip, &plans);
    let right = right_matrices(input, &sizes) && out == 4 * lists.claim_count();
    refuse_if(!right, 9)?;
    check_words(&[&input.r, &input.lambda, &input.matrices])
}

/// Whether r and the stacked matrices have their lengths.
fn right_matrices(input: &RunInput, sizes: &Sizes) -> bool {
    let lists = &input.lists;
    input.r.len() == 4 * (lists.n_stack as usize + 1)
        && input.matrices.len() == sizes.width << (lists.l_skip + lists.n_stack)
}

/// 9 for r, the four work buffers, and the stacked matrices or openings where the call takes them; the first polynomial takes no
/// work buffer.
fn check_lengths(call: Call, given: &RunGiven, sizes: &Sizes) -> Answer<()> {
    let RunInput {
        lists, r, matrices, ..
    } = given.input;
    if call == Call::First {
        let right = right_matrices(given.input, sizes)
            && given.coefficients == 4 * lists.coefficient_count();
        return refuse_if(!right, 9);
    }
    let table: usize = sizes.n_lifts.iter().map(|n_lift| 4usize << n_lift).sum();
    let work = &given.work;
    let mut right = r.len() == 4 * (lists.n_stack as usize + 1)
        && work.q_evals.len() == sizes.width * (4 << lists.n_stack)
        && work.eq_r.len() == table
        && work.k_rot_r.len() == table
        && work.eq_ub.len() == 4 * sizes.columns;
    if call == Call::FoldAtU0 {
        right &= matrices.len() == sizes.width << (lists.l_skip + lists.n_stack);
    }
    if call == Call::Openings {
        right &= given.openings == 4 * sizes.width;
    }
    refuse_if(!right, 9)
}

/// The challenge, the stacked matrices, and the live part of each work buffer whose values the call
/// takes; what it only writes, and the zeros past the live part, are not looked at.
fn words_taken<'a>(call: Call, given: &'a RunGiven, sizes: &Sizes) -> Vec<&'a [u32]> {
    let n_stack = given.input.lists.n_stack;
    let work = &given.work;
    let tables = |folds| {
        let eq = live_tables(work.eq_r, sizes, folds);
        let rot = live_tables(work.k_rot_r, sizes, folds);
        [eq, rot].concat()
    };
    let stack_columns = |folds: u32| {
        let live = (sizes.width * 4) << (n_stack - folds);
        &work.q_evals[..live]
    };
    let challenge = given.challenge.as_slice();
    match call {
        Call::Start => vec![],
        Call::First => vec![given.input.matrices.as_slice()],
        Call::FoldAtU0 => {
            let eq = live_tables(work.eq_r, sizes, 0);
            [vec![challenge, &given.input.matrices], eq].concat()
        }
        Call::Pair(round) => {
            let values = vec![stack_columns(round - 1), work.eq_ub];
            [values, tables(round - 1)].concat()
        }
        Call::Fold(round) => {
            let values = vec![challenge, stack_columns(round - 1), work.eq_ub];
            [values, tables(round - 1)].concat()
        }
        Call::Openings => vec![stack_columns(n_stack)],
    }
}

/// The words of q_evals, eq_r, k_rot_r and eq_ub, as ranges, that a call does not take and that may be
/// any when it is made: what it overwrites whole, and what a call that writes no buffer leaves alone. A
/// fold gets the zeros past the live part as the call before left them.
pub fn words_not_taken(call: Call, given: &RunGiven) -> Answer<[Vec<Range<usize>>; 4]> {
    let lists = &given.input.lists;
    let sizes = Sizes::of(lists.l_skip, &lists.plans()?);
    let work = &given.work;
    let all = |buffer: &[u32]| vec![0..buffer.len()];
    let past_live_values = |folds: u32| {
        let live = (sizes.width * 4) << (lists.n_stack - folds);
        vec![live..work.q_evals.len()]
    };
    let past_live_tables = |folds: u32| {
        let mut start = 0;
        let past = sizes.n_lifts.iter().map(|n_lift| {
            let live = start + (4usize << n_lift.saturating_sub(folds));
            start += 4usize << n_lift;
            live..start
        });
        past.collect::<Vec<_>>()
    };
    Ok(match call {
        Call::Start | Call::First => [work.q_evals, work.eq_r, work.k_rot_r, work.eq_ub].map(all),
        Call::FoldAtU0 => [all(work.q_evals), vec![], all(work.k_rot_r), vec![]],
        Call::Pair(round) => {
            let tables = past_live_tables(round - 1);
            [past_live_values(round - 1), tables.clone(), tables, vec![]]
        }
        Call::Fold(_) => [vec![], vec![], vec![], vec![]],
        Call::Openings => {
            let [eq, rot, weights] = [work.eq_r, work.k_rot_r, work.eq_ub].map(all);
            [past_live_values(lists.n_stack), eq, rot, weights]
        }
    })
}

/// The first values of every table after `folds` later folds.
fn live_tables<'a>(buffer: &'a [u32], sizes: &Sizes, folds: u32) -> Vec<&'a [u32]> {
    let mut start = 0;
    sizes
        .n_lifts
        .iter()
        .map(|n_lift| {
            let live = 4usize << n_lift.saturating_sub(folds);
            let part = &buffer[start..start + live];
            start += 4usize << n_lift;
            part
        })
        .collect()
}
