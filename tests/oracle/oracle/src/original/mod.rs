//! Thin calls of the original Rust, from words and to words, and a library behind its prover's trait.
mod behind_trait;
mod claims;
mod config;
mod empty_matrix;
mod layout;
mod panics;
mod run;
mod tables;
mod transcript;
mod verdict;

pub use behind_trait::{prove_behind_trait, Amiss};
pub use layout::{
    layout, layouts, plan, plan_unsorted, record, sorted, stack, stack_columns,
    stack_with_empty_matrix, stacked, view, Plan,
};
pub use panics::panic_of;
pub use run::{prove, Committed, PeekedRun, Proof, Run};
pub use stark_backend::prover::stacked_pcs::StackedLayout;
pub use tables::*;
pub use transcript::Given;
pub use verdict::{verdict, verdict_by_words, Outcome, Prepared, Sent, Verdict};
