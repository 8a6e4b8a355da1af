//! Kernels, tables and interpolation.
//!
//! The functions that give an element are total. A point is its coordinates, four words each, and two points are read at
//! as many coordinates as both have; words past the last whole element are not read. An l_skip above 10 is read as 10.
//! The factor of a row at a point is the polynomial that is 1 at this row and 0 at the others.
use crate::{ffi, Element, Error};

/// The eq kernel of two points of the cube: the product of 1 − x_i − y_i + 2·x_i·y_i.
///
/// ```
/// // 1 − 2 − 3 + 2·2·3
/// assert_eq!(legrudda::tables::eval_eq_mle(&[2, 0, 0, 0], &[3, 0, 0, 0]), 8.into());
/// ```
pub fn eval_eq_mle(x: &[u32], y: &[u32]) -> Element {
    // SAFETY: each pointer and count are of one slice.
    unsafe { ffi::legrudda_eval_eq_mle(x.as_ptr(), x.len(), y.as_ptr(), y.len()) }
}

/// The eq kernel of the skip subgroup: 1 or 0 for equal or different members, of degree below 2^l_skip in x and y.
///
/// ```
/// use legrudda::{tables, P};
///
/// assert_eq!(tables::eval_eq_uni(1, 3.into(), 5.into()), 8.into());
/// // 1 and −1 are the members of the subgroup of order 2.
/// assert_eq!(tables::eval_eq_uni(1, 1.into(), 1.into()), 1.into());
/// assert_eq!(tables::eval_eq_uni(1, 1.into(), (P - 1).into()), 0.into());
/// ```
pub fn eval_eq_uni(l_skip: u32, x: Element, y: Element) -> Element {
    ffi::legrudda_eval_eq_uni(l_skip, x, y)
}

/// [`eval_eq_uni`] of x and 1.
///
/// ```
/// use legrudda::tables;
///
/// assert_eq!(tables::eval_eq_uni_at_one(1, 3.into()), tables::eval_eq_uni(1, 3.into(), 1.into()));
/// ```
pub fn eval_eq_uni_at_one(l_skip: u32, x: Element) -> Element {
    ffi::legrudda_eval_eq_uni_at_one(l_skip, x)
}

/// The polynomial that is 1 at the powers where a short column has its rows and 0 at the subgroup's others; 1 for n ≥ 0. n
/// is the log height less l_skip.
///
/// ```
/// // (1 + 3)/2: of the powers 1 and −1, a column of one row has its row at 1.
/// assert_eq!(legrudda::tables::eval_in_uni(1, -1, 3.into()), 2.into());
/// assert_eq!(legrudda::tables::eval_in_uni(1, 0, 3.into()), 1.into());
/// ```
pub fn eval_in_uni(l_skip: u32, n: i32, z: Element) -> Element {
    ffi::legrudda_eval_in_uni(l_skip, n, z)
}

/// The eq kernel of two points of the prism, which have a coordinate for the skip subgroup and then those of the cube: the
/// sum over the rows of their factors at x and at y.
///
/// ```
/// use legrudda::tables;
///
/// let (x, y) = ([3, 0, 0, 0, 2, 0, 0, 0], [5, 0, 0, 0, 3, 0, 0, 0]);
/// let (uni, cube) = (tables::eval_eq_uni(1, 3.into(), 5.into()), tables::eval_eq_mle(&x[4..], &y[4..]));
/// assert_eq!(tables::eval_eq_prism(1, &x, &y), uni * cube);
/// ```
pub fn eval_eq_prism(l_skip: u32, x: &[u32], y: &[u32]) -> Element {
    // SAFETY: each pointer and count are of one slice.
    unsafe { ffi::legrudda_eval_eq_prism(l_skip, x.as_ptr(), x.len(), y.as_ptr(), y.len()) }
}

/// The rotation kernel of two points of the prism: the sum over the rows of their factor at x times the factor at y of the
/// row before, the last row standing before row 0.
///
/// ```
/// use legrudda::{tables, P};
///
/// // Of four rows at l_skip 1, row 2 stands at (1, 1), row 1 before it at (−1, 0).
/// let (row_1, row_2) = ([P - 1, 0, 0, 0, 0, 0, 0, 0], [1, 0, 0, 0, 1, 0, 0, 0]);
/// assert_eq!(tables::eval_rot_kernel_prism(1, &row_2, &row_1), 1.into());
/// assert_eq!(tables::eval_rot_kernel_prism(1, &row_1, &row_2), 0.into());
/// ```
pub fn eval_rot_kernel_prism(l_skip: u32, x: &[u32], y: &[u32]) -> Element {
    // SAFETY: each pointer and count are of one slice.
    unsafe { ffi::legrudda_eval_rot_kernel_prism(l_skip, x.as_ptr(), x.len(), y.as_ptr(), y.len()) }
}

/// [`eval_eq_mle`] of two points of the cube, and their rotation kernel, which takes the row before at y.
///
/// ```
/// use legrudda::{tables, P};
///
/// let (eq, rot) = tables::eval_eq_rot_cube(&[2, 0, 0, 0], &[3, 0, 0, 0]);
/// assert_eq!((eq, rot), (8.into(), (P - 7).into()));
/// ```
pub fn eval_eq_rot_cube(x: &[u32], y: &[u32]) -> (Element, Element) {
    // SAFETY: each pointer and count are of one slice.
    let both = unsafe { ffi::legrudda_eval_eq_rot_cube(x.as_ptr(), x.len(), y.as_ptr(), y.len()) };
    (both.eq, both.rot)
}

/// The value at x of the polynomial with these coefficients, lowest first.
///
/// ```
/// // 1 + 2·10 + 3·10²
/// let coeffs = [1, 0, 0, 0, 2, 0, 0, 0, 3, 0, 0, 0];
/// assert_eq!(legrudda::tables::horner_eval(&coeffs, 10.into()), 321.into());
/// ```
pub fn horner_eval(coeffs: &[u32], x: Element) -> Element {
    // SAFETY: the pointer and count are of one slice.
    unsafe { ffi::legrudda_horner_eval(coeffs.as_ptr(), coeffs.len(), x) }
}

/// The value at x of the line with these values at 0 and 1.
///
/// ```
/// // 4 + (10 − 4)·9
/// let value = legrudda::tables::interpolate_linear_at_01([4.into(), 10.into()], 9.into());
/// assert_eq!(value, 58.into());
/// ```
pub fn interpolate_linear_at_01(evals: [Element; 2], x: Element) -> Element {
    let [e0, e1] = evals;
    ffi::legrudda_interpolate_linear_at_01(e0, e1, x)
}

/// The value at x of the quadratic with these values at 0, 1 and 2.
///
/// ```
/// // The squares of 0, 1 and 2, and that of 3.
/// let squares = [0, 1, 4].map(Into::into);
/// assert_eq!(legrudda::tables::interpolate_quadratic_at_012(squares, 3.into()), 9.into());
/// ```
pub fn interpolate_quadratic_at_012(evals: [Element; 3], x: Element) -> Element {
    let [e0, e1, e2] = evals;
    ffi::legrudda_interpolate_quadratic_at_012(e0, e1, e2, x)
}

/// Writes the eq table of m coordinates, 4·2^m words, each entry times the starting element `start`: bit j of an
/// entry's index belongs to coordinate j. A start of one gives the plain table, and all entries add up to `start`.
/// The table is made from the last coordinate down: after k of them the first 2^k entries are the table of the last k.
///
/// # Errors
///
/// [`Error::WrongLength`], then [`Error::NotCanonical`] for a word of `x` or of `start` that is not below p; `out`
/// stays as it was.
///
/// ```
/// # fn main() -> Result<(), legrudda::Error> {
/// use legrudda::{field, tables, Element};
///
/// let mut table = [0; 8];
/// tables::evals_eq_hypercube(Element { words: [1, 0, 0, 0] }, &[3, 0, 0, 0], &mut table)?;
/// // 1 − 3 and 3
/// assert_eq!(table, [legrudda::P - 2, 0, 0, 0, 3, 0, 0, 0]);
///
/// // the same, each times 5; together they are 5
/// tables::evals_eq_hypercube(5.into(), &[3, 0, 0, 0], &mut table)?;
/// assert_eq!(table, [legrudda::P - 10, 0, 0, 0, 15, 0, 0, 0]);
/// assert_eq!(field::load(&table, 0) + field::load(&table, 1), 5.into());
///
/// // one coordinate more in front: entry j, which was −10 or 15, is entries 2j and 2j + 1, times 1 − 2 and times 2
/// let mut wider = [0; 16];
/// tables::evals_eq_hypercube(5.into(), &[2, 0, 0, 0, 3, 0, 0, 0], &mut wider)?;
/// let entries: Vec<u32> = wider.iter().step_by(4).copied().collect();
/// assert_eq!(entries, [10, legrudda::P - 20, legrudda::P - 15, 30]);
/// # Ok(())
/// # }
/// ```
pub fn evals_eq_hypercube(start: Element, x: &[u32], out: &mut [u32]) -> Result<(), Error> {
    let out_len = out.len();
    // SAFETY: each pointer and count are of one slice, and `out` is lent to this call alone.
    let number = unsafe {
        ffi::legrudda_evals_eq_hypercube(start, x.as_ptr(), x.len(), out.as_mut_ptr(), out_len)
    };
    Error::check_number(number)
}

/// Writes the Lagrange kernels at u of all powers of the skip subgroup, 4·2^l_skip words: the weights by which the fold
/// at u_0 adds up rows.
///
/// # Errors
///
/// [`Error::LimitExceeded`] for an l_skip above 10 and [`Error::WrongLength`]; `out` stays as it was.
///
/// ```
/// # fn main() -> Result<(), legrudda::Error> {
/// use legrudda::{field, tables};
///
/// // The rows 5 and 6 fold at u_0 = 3 to 4.
/// let mut kernels = [0; 8];
/// tables::eq_uni_kernels(1, 3.into(), &mut kernels)?;
/// let [a, b] = [0, 1].map(|row| field::load(&kernels, row));
/// assert_eq!(field::scale(a, 5) + field::scale(b, 6), 4.into());
/// # Ok(())
/// # }
/// ```
pub fn eq_uni_kernels(l_skip: u32, u: Element, out: &mut [u32]) -> Result<(), Error> {
    let out_len = out.len();
    // SAFETY: the pointer and count are of one slice, lent to this call alone.
    let number = unsafe { ffi::legrudda_eq_uni_kernels(l_skip, u, out.as_mut_ptr(), out_len) };
    Error::check_number(number)
}
