//! Document 01's refusals, written from its text and its table alone: the number that a call must
//! give for arbitrary words, lists and lengths. The original has no such checks but 4, 5, 13 and 14.
//! Document 02's calls are with them: matrices in whatever order, the first polynomial, the trace columns' openings; and its limit
//! of 4,096 matrices.
//!
//! The lowest number wins, and 4 and 5 come as one walk over the list meets them. Where document 01
//! leaves a reading open, the comment at the check says which one is taken.
mod commitments;
mod list;
mod planning;
mod run;
mod stacking;
#[cfg(test)]
mod tests;
mod text;
mod verdict;
mod words;

pub use commitments::Lists;
pub use list::{Place, Plan, MAX_COLUMNS, MAX_MATRICES, MAX_N_STACK};
pub use planning::{get, planning, stacked_size, unsorted_planning, view};
pub use run::{
    column_openings, run_call, words_not_taken, Call, RunGiven, RunInput, Turn, WorkBuffers,
};
pub use stacking::stacking;
pub use text::plan_text;
pub use verdict::{verdict, VerdictGiven};
pub use words::in_skip_subgroup;

/// A result, or the number of the refusal.
pub type Answer<T> = Result<T, u32>;

/// Refuses with `number` if the condition holds.
fn refuse_if(condition: bool, number: u32) -> Answer<()> {
    if condition {
        Err(number)
    } else {
        Ok(())
    }
}
