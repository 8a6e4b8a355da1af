//! The stacked opening reduction, proved in Rattle, for Rust programs.
//!
//! Traces are stacked into columns, a prover answers random challenges by a sumcheck, and a verifier says yes or no. The
//! functions here are those of the static library `liblegrudda.a`, which `rt lib --cpu x86-64` in `crates/legrudda` proves and writes; this
//! crate adds types and no arithmetic of words. The transcript is the caller's.
//!
//! # Words, elements and lists
//!
//! A word is a `u32` below [`P`], an [`Element`] four of them. A slice of elements is a slice of words, four an element.
//! A commitment's list has three words a matrix: width, log height and rotation flag (0 or 1). A run and a verdict take
//! the lists of all commitments as one slice, `lists`, beside `counts`, the number of matrices of each commitment.
//!
//! What is refused is refused with an [`Error`], whose variants are the numbers of the project's document 01. The lowest
//! number wins, a refused call leaves a run where it was, and it writes nothing that it was lent, but for
//! [`Error::FinalSumMismatch`], where all that was observed is written.
//!
//! # A whole reduction
//!
//! ```
//! use legrudda::{layout, verdict, Asked, Element, Error, Run};
//!
//! # fn main() -> Result<(), Error> {
//! // One commitment of one matrix: width 1, log height 1, no rotation.
//! let (l_skip, n_stack, counts, lists) = (0, 1, [1], [1, 1, 0]);
//!
//! // The plan says how large the stacked matrix is; stacking takes heights in place of log heights.
//! let (plan, _) = layout::plan(l_skip, n_stack, &lists)?;
//! let mut stacked = vec![0; plan.width as usize * plan.height as usize];
//! layout::stacked_matrix(l_skip, n_stack, &[1, 2, 0], &[4, 10], &mut stacked)?;
//!
//! // The prover. In earnest, r, lambda and the challenges are random.
//! let r = [7, 0, 0, 0, 8, 0, 0, 0];
//! let lambda = Element::from(5);
//! let (u_0, u_1) = (Element::from(3), Element::from(9));
//! let mut run = Run::new(l_skip, n_stack, &counts, &lists, &r, lambda);
//! run.start()?;
//! let first = run.first_polynomial(&stacked)?;
//! run.fold_ple_evals(&stacked, u_0)?;
//! let pair = run.round_pair(1)?;
//! run.fold_mle_evals(1, u_1)?;
//! let openings = run.openings()?;
//! assert_eq!(openings, [58, 0, 0, 0]);
//!
//! // The verifier, on the column's value at r; at l_skip 0 the first polynomial is this constant.
//! let claims = run.column_openings(&stacked)?;
//! assert_eq!((&claims, &first), (&vec![52, 0, 0, 0], &vec![52, 0, 0, 0]));
//! let asked = Asked {
//!     l_skip,
//!     n_stack,
//!     counts: &counts,
//!     lists: &lists,
//!     r: &r,
//!     lambda,
//!     challenges: &[u_0.words, u_1.words].concat(),
//!     claims: &claims,
//!     coefficients: &first,
//!     pairs: &[pair.at_1.words, pair.at_2.words].concat(),
//!     openings: &openings,
//! };
//! let mut observed = vec![0; asked.observed_len()];
//! verdict(&asked, &mut observed)?;
//!
//! // Another opening is refused, with both sides of the last equation.
//! let wrong = Asked { openings: &[59, 0, 0, 0], ..asked };
//! let error = verdict(&wrong, &mut observed).unwrap_err();
//! assert!(matches!(error, Error::FinalSumMismatch { .. }));
//!
//! // So is another claim, whose first polynomial is then wrong at u_0.
//! let claim = [999, 0, 0, 0];
//! let wrong = Asked { claims: &claim, coefficients: &claim, ..asked };
//! assert!(verdict(&wrong, &mut observed).is_err());
//! # Ok(())
//! # }
//! ```
//!
//! [`behind_trait`] says how the original's own `prove_stacked_opening_reduction`, which has a transcript, drives a
//! [`Run`].
//!
//! # Threads
//!
//! The library has no data that it writes but what a call is lent, so any thread may make any call at any time. All types
//! here are `Send` and `Sync`. A call needs at most 96 KiB of stack; this is measured (the most in
//! [`Run::first_polynomial`]) and not proved. No call takes memory of its own, but those that give a `Vec`, [`Run::new`]
//! and [`Run::try_new`].
//!
//! # Linking
//!
//! The build looks for `liblegrudda.a` in the folder that the environment variable `LEGRUDDA_LIB` names, and without it
//! in `crates/legrudda/out` of the repository. Where it is not there the build warns, and says how to make it: `cargo check`
//! and `cargo doc` need no library, only what is linked does. The library is for x86-64 Linux and needs no other, but for
//! C's `memcpy` and `memset`.
#![deny(missing_docs)]

pub mod behind_trait;
mod error;
mod ffi;
pub mod field;
pub mod layout;
mod record;
mod room;
mod run;
pub mod tables;
mod verifier;
mod widths;

pub use error::Error;
pub use field::{Element, P};
pub use room::{room, version, Room};
pub use run::{RoundPair, Run};
pub use verifier::{verdict, Asked};
