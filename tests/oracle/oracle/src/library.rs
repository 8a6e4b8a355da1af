//! The calls that are compared, as a trait: the linked static library has them, and so has any stand-in
//! that a test of the drivers makes.
use crate::{
    record::Record,
    scope::{Call, RunGiven, RunInput, VerdictGiven, WorkBuffers},
};

/// A refused call's results are zero.
#[derive(Clone, Copy, Debug, Default, PartialEq, Eq)]
pub struct PlanAnswer {
    pub number: u32,
    pub width: u32,
    pub height: u32,
    pub columns: u32,
}

#[derive(Clone, Copy, Debug, Default, PartialEq, Eq)]
pub struct GetAnswer {
    pub number: u32,
    pub record: Record,
}

#[derive(Clone, Copy, Debug, Default, PartialEq, Eq)]
pub struct StackAnswer {
    pub number: u32,
    pub width: u32,
    pub height: u32,
}

#[derive(Clone, Copy, Debug, Default, PartialEq, Eq)]
pub struct ViewAnswer {
    pub number: u32,
    pub start: u64,
    pub length: u64,
}

/// An element by its words.
pub type Words = [u32; 4];

/// 13 and 14 have both sides, a yes those of 14; they are zero otherwise.
#[derive(Clone, Copy, Debug, Default, PartialEq, Eq)]
pub struct VerdictAnswer {
    pub number: u32,
    pub left: Words,
    pub right: Words,
}

impl VerdictAnswer {
    pub fn refused(number: u32) -> Self {
        Self {
            number,
            ..Self::default()
        }
    }
}

/// The turn is the number of accepted calls; a pair's values stand at 1 and 2.
#[derive(Clone, Copy, Debug, Default, PartialEq, Eq)]
pub struct StepAnswer {
    pub number: u32,
    pub turn: u32,
    pub pair: [Words; 2],
}

/// What a call of a run is lent beside its turn; what it does not take is not looked at.
pub struct RunLent<'a> {
    pub input: &'a RunInput,
    pub challenge: Words,
    /// q_evals, eq_r, k_rot_r and eq_ub.
    pub work: [&'a mut [u32]; 4],
    pub coefficients: &'a mut [u32],
    pub openings: &'a mut [u32],
}

impl RunLent<'_> {
    pub fn given(&self) -> RunGiven<'_> {
        RunGiven {
            input: self.input,
            challenge: self.challenge,
            work: WorkBuffers::of(&self.work),
            coefficients: self.coefficients.len(),
            openings: self.openings.len(),
        }
    }
}

/// Field and tables are total: words are read modulo p, a missing word of a slice is 0, and results
/// are below p. Layout calls and the table writer refuse by document 01's numbers.
pub trait Library {
    fn add(&self, a: Words, b: Words) -> Words;
    fn sub(&self, a: Words, b: Words) -> Words;
    fn neg(&self, a: Words) -> Words;
    fn double(&self, a: Words) -> Words;
    fn halve(&self, a: Words) -> Words;
    fn mul(&self, a: Words, b: Words) -> Words;
    fn square(&self, a: Words) -> Words;
    fn scale(&self, a: Words, word: u32) -> Words;
    fn from_word(&self, word: u32) -> Words;
    fn exp_power_of_2(&self, a: Words, k: u32) -> Words;
    fn skip_power(&self, l_skip: u32, i: u32) -> u32;
    fn load(&self, s: &[u32], index: usize) -> Words;
    fn store(&self, s: &mut [u32], index: usize, a: Words);

    fn eval_eq_mle(&self, x: &[u32], y: &[u32]) -> Words;
    fn eval_eq_uni(&self, l_skip: u32, x: Words, y: Words) -> Words;
    fn eval_eq_uni_at_one(&self, l_skip: u32, x: Words) -> Words;
    fn eval_in_uni(&self, l_skip: u32, n: i32, z: Words) -> Words;
    fn eval_eq_prism(&self, l_skip: u32, x: &[u32], y: &[u32]) -> Words;
    fn eval_rot_kernel_prism(&self, l_skip: u32, x: &[u32], y: &[u32]) -> Words;
    /// eq, then rot.
    fn eval_eq_rot_cube(&self, x: &[u32], y: &[u32]) -> [Words; 2];
    fn horner_eval(&self, coefficients: &[u32], x: Words) -> Words;
    fn interpolate_linear_at_01(&self, evals: [Words; 2], x: Words) -> Words;
    fn interpolate_quadratic_at_012(&self, evals: [Words; 3], x: Words) -> Words;
    fn evals_eq_hypercube(&self, start: Words, x: &[u32], out: &mut [u32]) -> u32;

    /// Two words a column are lent for the records.
    fn plan(&self, l_skip: u32, n_stack: u32, list: &[u32], records: &mut [u64]) -> PlanAnswer;
    fn plan_unsorted(
        &self,
        l_skip: u32,
        n_stack: u32,
        list: &[u32],
        arrivals: &mut [u32],
        records: &mut [u64],
    ) -> PlanAnswer;
    fn get(&self, l_skip: u32, n_stack: u32, list: &[u32], matrix: u32, column: u32) -> GetAnswer;
    fn stacked_matrix(
        &self,
        l_skip: u32,
        n_stack: u32,
        list: &[u32],
        cells: &[u32],
        out: &mut [u32],
    ) -> StackAnswer;
    fn mat_place(
        &self,
        l_skip: u32,
        n_stack: u32,
        list: &[u32],
        stacked: &[u32],
        matrix: u32,
    ) -> ViewAnswer;

    fn run_call(&self, turn: u32, call: Call, lent: RunLent) -> StepAnswer;
    /// The number; the claims are written to `out`.
    fn column_openings(&self, input: &RunInput, out: &mut [u32]) -> u32;
    fn verdict(&self, given: &VerdictGiven, observed: &mut [u32]) -> VerdictAnswer;
}

/// The linked static library; none without the feature `ours`.
pub fn linked() -> Option<&'static dyn Library> {
    #[cfg(feature = "ours")]
    return Some(&crate::ours::Ours);
    #[cfg(not(feature = "ours"))]
    None
}
