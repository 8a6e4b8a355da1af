//! The project's static library, through the declarations of its Rust client.
use legrudda::Element;

use crate::{
    library::{
        GetAnswer, Library, PlanAnswer, RunLent, StackAnswer, StepAnswer, VerdictAnswer,
        ViewAnswer, Words,
    },
    record::{packed, Record},
    scope::{Call, RunInput, VerdictGiven},
};

/// The client does not export them.
#[path = "../../../../rust/legrudda/src/ffi.rs"]
pub mod ffi;

impl From<ffi::Plan> for PlanAnswer {
    fn from(answer: ffi::Plan) -> Self {
        Self {
            number: answer.number,
            width: answer.width,
            height: answer.height,
            columns: answer.columns,
        }
    }
}

impl ffi::Slice {
    /// The record that packs it with the indices that were asked for.
    fn record(&self, matrix: u32, column: u32) -> Record {
        if self.number != 0 {
            return [0; 2];
        }
        let fields = [matrix, column, self.col_idx, self.row_idx, self.log_height];
        let [matrix, column, stack_column, row, log_height] = fields.map(u64::from);
        packed(matrix, column, stack_column, row, log_height)
    }
}

impl From<ffi::Stepped> for StepAnswer {
    fn from(answer: ffi::Stepped) -> Self {
        Self {
            number: answer.number,
            turn: answer.turn,
            ..Self::default()
        }
    }
}

impl From<ffi::PairStepped> for StepAnswer {
    fn from(answer: ffi::PairStepped) -> Self {
        Self {
            number: answer.number,
            turn: answer.turn,
            pair: [answer.at_1.words, answer.at_2.words],
        }
    }
}

/// The linked library.
pub struct Ours;

impl Library for Ours {
    fn add(&self, a: Words, b: Words) -> Words {
        ffi::legrudda_add(a.into(), b.into()).words
    }

    fn sub(&self, a: Words, b: Words) -> Words {
        ffi::legrudda_sub(a.into(), b.into()).words
    }

    fn neg(&self, a: Words) -> Words {
        ffi::legrudda_neg(a.into()).words
    }

    fn double(&self, a: Words) -> Words {
        ffi::legrudda_double(a.into()).words
    }

    fn halve(&self, a: Words) -> Words {
        ffi::legrudda_halve(a.into()).words
    }

    fn mul(&self, a: Words, b: Words) -> Words {
        ffi::legrudda_mul(a.into(), b.into()).words
    }

    fn square(&self, a: Words) -> Words {
        ffi::legrudda_square(a.into()).words
    }

    fn scale(&self, a: Words, word: u32) -> Words {
        ffi::legrudda_scale(a.into(), word).words
    }

    fn from_word(&self, word: u32) -> Words {
        ffi::legrudda_from_word(word).words
    }

    fn exp_power_of_2(&self, a: Words, k: u32) -> Words {
        ffi::legrudda_exp_power_of_2(a.into(), k).words
    }

    fn skip_power(&self, l_skip: u32, i: u32) -> u32 {
        ffi::legrudda_skip_power(l_skip, i)
    }

    fn load(&self, s: &[u32], index: usize) -> Words {
        unsafe { ffi::legrudda_load(s.as_ptr(), s.len(), index) }.words
    }

    fn store(&self, s: &mut [u32], index: usize, a: Words) {
        unsafe { ffi::legrudda_store(s.as_mut_ptr(), s.len(), index, a.into()) }
    }

    fn eval_eq_mle(&self, x: &[u32], y: &[u32]) -> Words {
        unsafe { ffi::legrudda_eval_eq_mle(x.as_ptr(), x.len(), y.as_ptr(), y.len()) }.words
    }

    fn eval_eq_uni(&self, l_skip: u32, x: Words, y: Words) -> Words {
        ffi::legrudda_eval_eq_uni(l_skip, x.into(), y.into()).words
    }

    fn eval_eq_uni_at_one(&self, l_skip: u32, x: Words) -> Words {
        ffi::legrudda_eval_eq_uni_at_one(l_skip, x.into()).words
    }

    fn eval_in_uni(&self, l_skip: u32, n: i32, z: Words) -> Words {
        ffi::legrudda_eval_in_uni(l_skip, n, z.into()).words
    }

    fn eval_eq_prism(&self, l_skip: u32, x: &[u32], y: &[u32]) -> Words {
        let (x, x_len, y, y_len) = (x.as_ptr(), x.len(), y.as_ptr(), y.len());
        unsafe { ffi::legrudda_eval_eq_prism(l_skip, x, x_len, y, y_len) }.words
    }

    fn eval_rot_kernel_prism(&self, l_skip: u32, x: &[u32], y: &[u32]) -> Words {
        let (x, x_len, y, y_len) = (x.as_ptr(), x.len(), y.as_ptr(), y.len());
        unsafe { ffi::legrudda_eval_rot_kernel_prism(l_skip, x, x_len, y, y_len) }.words
    }

    fn eval_eq_rot_cube(&self, x: &[u32], y: &[u32]) -> [Words; 2] {
        let (x, x_len, y, y_len) = (x.as_ptr(), x.len(), y.as_ptr(), y.len());
        let both = unsafe { ffi::legrudda_eval_eq_rot_cube(x, x_len, y, y_len) };
        [both.eq.words, both.rot.words]
    }

    fn horner_eval(&self, coefficients: &[u32], x: Words) -> Words {
        let (words, count) = (coefficients.as_ptr(), coefficients.len());
        unsafe { ffi::legrudda_horner_eval(words, count, x.into()) }.words
    }

    fn interpolate_linear_at_01(&self, evals: [Words; 2], x: Words) -> Words {
        let [e0, e1] = evals.map(Element::from);
        ffi::legrudda_interpolate_linear_at_01(e0, e1, x.into()).words
    }

    fn interpolate_quadratic_at_012(&self, evals: [Words; 3], x: Words) -> Words {
        let [e0, e1, e2] = evals.map(Element::from);
        ffi::legrudda_interpolate_quadratic_at_012(e0, e1, e2, x.into()).words
    }

    fn evals_eq_hypercube(&self, start: Words, x: &[u32], out: &mut [u32]) -> u32 {
        let (x, x_len) = (x.as_ptr(), x.len());
        let (out, out_len) = (out.as_mut_ptr(), out.len());
        unsafe { ffi::legrudda_evals_eq_hypercube(start.into(), x, x_len, out, out_len) }
    }

    fn plan(&self, l_skip: u32, n_stack: u32, list: &[u32], records: &mut [u64]) -> PlanAnswer {
        let (list, list_len) = (list.as_ptr(), list.len());
        let (records, records_len) = (records.as_mut_ptr(), records.len());
        unsafe { ffi::legrudda_plan(l_skip, n_stack, list, list_len, records, records_len) }.into()
    }

    fn plan_unsorted(
        &self,
        l_skip: u32,
        n_stack: u32,
        list: &[u32],
        arrivals: &mut [u32],
        records: &mut [u64],
    ) -> PlanAnswer {
        unsafe {
            ffi::legrudda_plan_unsorted(
                l_skip,
                n_stack,
                list.as_ptr(),
                list.len(),
                arrivals.as_mut_ptr(),
                arrivals.len(),
                records.as_mut_ptr(),
                records.len(),
            )
        }
        .into()
    }

    fn get(&self, l_skip: u32, n_stack: u32, list: &[u32], matrix: u32, column: u32) -> GetAnswer {
        let (list, list_len) = (list.as_ptr(), list.len());
        let (mat_idx, col_idx) = (matrix as usize, column as usize);
        let answer =
            unsafe { ffi::legrudda_get(l_skip, n_stack, list, list_len, mat_idx, col_idx) };
        GetAnswer {
            number: answer.number,
            record: answer.record(matrix, column),
        }
    }

    fn stacked_matrix(
        &self,
        l_skip: u32,
        n_stack: u32,
        list: &[u32],
        cells: &[u32],
        out: &mut [u32],
    ) -> StackAnswer {
        let answer = unsafe {
            ffi::legrudda_stacked_matrix(
                l_skip,
                n_stack,
                list.as_ptr(),
                list.len(),
                cells.as_ptr(),
                cells.len(),
                out.as_mut_ptr(),
                out.len(),
            )
        };
        StackAnswer {
            number: answer.number,
            width: answer.width,
            height: answer.height,
        }
    }

    fn mat_place(
        &self,
        l_skip: u32,
        n_stack: u32,
        list: &[u32],
        stacked: &[u32],
        matrix: u32,
    ) -> ViewAnswer {
        let answer = unsafe {
            ffi::legrudda_mat_place(
                l_skip,
                n_stack,
                list.as_ptr(),
                list.len(),
                stacked.as_ptr(),
                stacked.len(),
                matrix as usize,
            )
        };
        ViewAnswer {
            number: answer.number,
            start: answer.start as u64,
            length: answer.len as u64,
        }
    }

    fn run_call(&self, turn: u32, call: Call, lent: RunLent) -> StepAnswer {
        let RunInput {
            lists,
            r,
            lambda,
            matrices,
        } = lent.input;
        let [q_evals, eq_r, k_rot_r, eq_ub] = lent.work;
        macro_rules! call {
            ($function:ident, ($($takes:expr),*), ($($writes:expr),*)) => {
                unsafe {
                    ffi::$function(
                        turn,
                        lists.l_skip,
                        lists.n_stack,
                        lists.counts.as_ptr(),
                        lists.counts.len(),
                        lists.words.as_ptr(),
                        lists.words.len(),
                        r.as_ptr(),
                        r.len(),
                        (*lambda).into(),
                        $($takes,)*
                        q_evals.as_mut_ptr(),
                        q_evals.len(),
                        eq_r.as_mut_ptr(),
                        eq_r.len(),
                        k_rot_r.as_mut_ptr(),
                        k_rot_r.len(),
                        eq_ub.as_mut_ptr(),
                        eq_ub.len(),
                        $($writes,)*
                    )
                }
                .into()
            };
        }
        let challenge = Element::from(lent.challenge);
        match call {
            Call::Start => call!(legrudda_start, (), ()),
            Call::First => unsafe {
                ffi::legrudda_first_polynomial(
                    turn,
                    lists.l_skip,
                    lists.n_stack,
                    lists.counts.as_ptr(),
                    lists.counts.len(),
                    lists.words.as_ptr(),
                    lists.words.len(),
                    r.as_ptr(),
                    r.len(),
                    (*lambda).into(),
                    matrices.as_ptr(),
                    matrices.len(),
                    lent.coefficients.as_mut_ptr(),
                    lent.coefficients.len(),
                )
            }
            .into(),
            Call::FoldAtU0 => {
                let (words, count) = (matrices.as_ptr(), matrices.len());
                call!(legrudda_fold_ple_evals, (words, count, challenge), ())
            }
            Call::Pair(round) => call!(legrudda_round_pair, (round), ()),
            Call::Fold(round) => call!(legrudda_fold_mle_evals, (round, challenge), ()),
            Call::Openings => {
                let (words, count) = (lent.openings.as_mut_ptr(), lent.openings.len());
                call!(legrudda_openings, (), (words, count))
            }
        }
    }

    fn column_openings(&self, input: &RunInput, out: &mut [u32]) -> u32 {
        let RunInput {
            lists,
            r,
            lambda,
            matrices,
        } = input;
        unsafe {
            ffi::legrudda_column_openings(
                lists.l_skip,
                lists.n_stack,
                lists.counts.as_ptr(),
                lists.counts.len(),
                lists.words.as_ptr(),
                lists.words.len(),
                r.as_ptr(),
                r.len(),
                (*lambda).into(),
                matrices.as_ptr(),
                matrices.len(),
                out.as_mut_ptr(),
                out.len(),
            )
        }
    }

    fn verdict(&self, given: &VerdictGiven, observed: &mut [u32]) -> VerdictAnswer {
        let lists = given.lists;
        let answer = unsafe {
            ffi::legrudda_verdict(
                lists.l_skip,
                lists.n_stack,
                lists.counts.as_ptr(),
                lists.counts.len(),
                lists.words.as_ptr(),
                lists.words.len(),
                given.r.as_ptr(),
                given.r.len(),
                given.lambda.into(),
                given.challenges.as_ptr(),
                given.challenges.len(),
                given.claims.as_ptr(),
                given.claims.len(),
                given.first.as_ptr(),
                given.first.len(),
                given.pairs.as_ptr(),
                given.pairs.len(),
                given.openings.as_ptr(),
                given.openings.len(),
                observed.as_mut_ptr(),
                observed.len(),
            )
        };
        VerdictAnswer {
            number: answer.number,
            left: answer.left.words,
            right: answer.right.words,
        }
    }
}
