//! The library's functions, as crates/legrudda/src declares them. A slice is a pointer and a count, everything else goes
//! by value. tests/oracle compiles this file too, and compares the library with the original Rust through it.
//!
//! No function asks anything of its callers: each is proved to be defined, to stay within the slices it is lent and to
//! end, whatever it is given. Those that take no slice are therefore safe. The others are safe where each pointer and
//! count come from one slice, and those of a slice that is written from one that nothing else reads or writes; Rust's
//! references give both.
use super::Element;

pub type Words = *const u32;
pub type WordsMut = *mut u32;

#[repr(C)]
pub struct EqRot {
    pub eq: Element,
    pub rot: Element,
}

#[repr(C)]
pub struct Plan {
    pub number: u32,
    pub width: u32,
    pub height: u32,
    pub columns: u32,
}

#[repr(C)]
pub struct Slice {
    pub number: u32,
    pub col_idx: u32,
    pub row_idx: u32,
    pub log_height: u32,
}

#[repr(C)]
pub struct Place {
    pub number: u32,
    pub start: usize,
    pub len: usize,
}

#[repr(C)]
pub struct Room {
    pub number: u32,
    pub r: usize,
    pub q_evals: usize,
    pub eq_r: usize,
    pub eq_ub: usize,
    pub matrices: usize,
    pub openings: usize,
    pub challenges: usize,
    pub claims: usize,
    pub coefficients: usize,
    pub pairs: usize,
    pub observed: usize,
}

#[repr(C)]
pub struct Stepped {
    pub number: u32,
    pub turn: u32,
}

#[repr(C)]
pub struct PairStepped {
    pub number: u32,
    pub turn: u32,
    pub at_1: Element,
    pub at_2: Element,
}

#[repr(C)]
pub struct Judged {
    pub number: u32,
    pub left: Element,
    pub right: Element,
}

// elements.rt
unsafe extern "C" {
    pub safe fn legrudda_add(a: Element, b: Element) -> Element;
    pub safe fn legrudda_sub(a: Element, b: Element) -> Element;
    pub safe fn legrudda_neg(a: Element) -> Element;
    pub safe fn legrudda_double(a: Element) -> Element;
    pub safe fn legrudda_halve(a: Element) -> Element;
    pub safe fn legrudda_mul(a: Element, b: Element) -> Element;
    pub safe fn legrudda_square(a: Element) -> Element;
    pub safe fn legrudda_scale(a: Element, word: u32) -> Element;
    pub safe fn legrudda_from_word(word: u32) -> Element;
    pub safe fn legrudda_exp_power_of_2(a: Element, k: u32) -> Element;
    pub safe fn legrudda_skip_power(l_skip: u32, i: u32) -> u32;
    pub fn legrudda_load(s: Words, s_len: usize, index: usize) -> Element;
    pub fn legrudda_store(s: WordsMut, s_len: usize, index: usize, a: Element);
}

// kernels.rt
unsafe extern "C" {
    pub fn legrudda_eval_eq_mle(x: Words, x_len: usize, y: Words, y_len: usize) -> Element;
    pub safe fn legrudda_eval_eq_uni(l_skip: u32, x: Element, y: Element) -> Element;
    pub safe fn legrudda_eval_eq_uni_at_one(l_skip: u32, x: Element) -> Element;
    pub safe fn legrudda_eval_in_uni(l_skip: u32, n: i32, z: Element) -> Element;
    pub fn legrudda_eval_eq_prism(
        l_skip: u32,
        x: Words,
        x_len: usize,
        y: Words,
        y_len: usize,
    ) -> Element;
    pub fn legrudda_eval_rot_kernel_prism(
        l_skip: u32,
        x: Words,
        x_len: usize,
        y: Words,
        y_len: usize,
    ) -> Element;
    pub fn legrudda_eval_eq_rot_cube(x: Words, x_len: usize, y: Words, y_len: usize) -> EqRot;
    pub fn legrudda_horner_eval(coeffs: Words, coeffs_len: usize, x: Element) -> Element;
    pub safe fn legrudda_interpolate_linear_at_01(e0: Element, e1: Element, x: Element) -> Element;
    pub safe fn legrudda_interpolate_quadratic_at_012(
        e0: Element,
        e1: Element,
        e2: Element,
        x: Element,
    ) -> Element;
    pub fn legrudda_evals_eq_hypercube(
        start: Element,
        x: Words,
        x_len: usize,
        out: WordsMut,
        out_len: usize,
    ) -> u32;
    pub fn legrudda_eq_uni_kernels(l_skip: u32, u: Element, out: WordsMut, out_len: usize) -> u32;
}

// plans.rt
unsafe extern "C" {
    pub fn legrudda_plan(
        l_skip: u32,
        n_stack: u32,
        list: Words,
        list_len: usize,
        records: *mut u64,
        records_len: usize,
    ) -> Plan;
    pub fn legrudda_get(
        l_skip: u32,
        n_stack: u32,
        list: Words,
        list_len: usize,
        mat_idx: usize,
        col_idx: usize,
    ) -> Slice;
    pub fn legrudda_stacked_matrix(
        l_skip: u32,
        n_stack: u32,
        traces: Words,
        traces_len: usize,
        cells: Words,
        cells_len: usize,
        q_mat: WordsMut,
        q_mat_len: usize,
    ) -> Plan;
    pub fn legrudda_mat_place(
        l_skip: u32,
        n_stack: u32,
        list: Words,
        list_len: usize,
        stacked: Words,
        stacked_len: usize,
        mat_idx: usize,
    ) -> Place;
    pub fn legrudda_plan_unsorted(
        l_skip: u32,
        n_stack: u32,
        list: Words,
        list_len: usize,
        arrivals: WordsMut,
        arrivals_len: usize,
        records: *mut u64,
        records_len: usize,
    ) -> Plan;
}

// rooms.rt
unsafe extern "C" {
    pub fn legrudda_room(
        l_skip: u32,
        n_stack: u32,
        counts: Words,
        counts_len: usize,
        lists: Words,
        lists_len: usize,
    ) -> Room;
}

// runs.rt
/// Declares the calls of a run: the turn and what every call is given, what this one takes, the work buffers, and what this
/// one writes. The two types say whether the first three buffers, and the last, are read or written.
macro_rules! calls_of_a_run {
    ($($name:ident($($takes:ident: $a:ty),*) ($three:ty, $last:ty) ($($writes:ident: $b:ty),*) -> $answer:ty;)*) => {
        unsafe extern "C" {$(
            pub fn $name(
                turn: u32,
                l_skip: u32,
                n_stack: u32,
                counts: Words,
                counts_len: usize,
                lists: Words,
                lists_len: usize,
                r: Words,
                r_len: usize,
                lambda: Element,
                $($takes: $a,)*
                q_evals: $three,
                q_evals_len: usize,
                eq_r: $three,
                eq_r_len: usize,
                k_rot_r: $three,
                k_rot_r_len: usize,
                eq_ub: $last,
                eq_ub_len: usize,
                $($writes: $b,)*
            ) -> $answer;
        )*}
    };
}

calls_of_a_run! {
    legrudda_start() (WordsMut, WordsMut) () -> Stepped;
    legrudda_fold_ple_evals(matrices: Words, matrices_len: usize, u_0: Element) (WordsMut, Words) () -> Stepped;
    legrudda_round_pair(round: u32) (Words, Words) () -> PairStepped;
    legrudda_fold_mle_evals(round: u32, u: Element) (WordsMut, WordsMut) () -> Stepped;
    legrudda_openings() (Words, Words) (out: WordsMut, out_len: usize) -> Stepped;
}

// The two that take no work buffer.
unsafe extern "C" {
    pub fn legrudda_first_polynomial(
        turn: u32,
        l_skip: u32,
        n_stack: u32,
        counts: Words,
        counts_len: usize,
        lists: Words,
        lists_len: usize,
        r: Words,
        r_len: usize,
        lambda: Element,
        matrices: Words,
        matrices_len: usize,
        out: WordsMut,
        out_len: usize,
    ) -> Stepped;
    pub fn legrudda_column_openings(
        l_skip: u32,
        n_stack: u32,
        counts: Words,
        counts_len: usize,
        lists: Words,
        lists_len: usize,
        r: Words,
        r_len: usize,
        lambda: Element,
        matrices: Words,
        matrices_len: usize,
        out: WordsMut,
        out_len: usize,
    ) -> u32;
}

// verdicts.rt
unsafe extern "C" {
    pub fn legrudda_verdict(
        l_skip: u32,
        n_stack: u32,
        counts: Words,
        counts_len: usize,
        lists: Words,
        lists_len: usize,
        r: Words,
        r_len: usize,
        lambda: Element,
        challenges: Words,
        challenges_len: usize,
        claims: Words,
        claims_len: usize,
        coefficients: Words,
        coefficients_len: usize,
        pairs: Words,
        pairs_len: usize,
        openings: Words,
        openings_len: usize,
        observed: WordsMut,
        observed_len: usize,
    ) -> Judged;
}

// version.rt
unsafe extern "C" {
    pub safe fn legrudda_version() -> u32;
}
