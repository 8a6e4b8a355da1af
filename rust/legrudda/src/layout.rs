//! Planning, stacking and views of one commitment.
//!
//! A list has three words a matrix: width, log height and rotation flag. H is 2^(l_skip + n_stack), the height of a stack
//! column. A column of log height h takes max(2^h, 2^l_skip) rows.
use std::ops::Range;

pub use crate::record::{Placed, Record, Slice};
use crate::{ffi, Error};

/// The size of a commitment's stacked matrix.
///
/// ```
/// # fn main() -> Result<(), legrudda::Error> {
/// use legrudda::layout::{self, Plan};
///
/// // The first column, of four rows, fills a stack column; the other two, of one row each, share the next.
/// let (plan, _) = layout::plan(1, 1, &[1, 2, 0, 2, 0, 1])?;
/// assert_eq!(plan, Plan { width: 2, height: 4, columns: 3 });
/// # Ok(())
/// # }
/// ```
#[derive(Clone, Copy, Debug, PartialEq, Eq)]
pub struct Plan {
    /// The number of stack columns.
    pub width: u32,
    /// H, the height of each.
    pub height: u32,
    /// The number of columns that are stacked.
    pub columns: u32,
}

impl ffi::Plan {
    fn checked(self) -> Result<Plan, Error> {
        Error::check_number(self.number)?;
        Ok(Plan {
            width: self.width,
            height: self.height,
            columns: self.columns,
        })
    }
}

/// Plans a commitment: its size, and a record a column. A list of no column is taken.
///
/// # Errors
///
/// Numbers 1, 2, 4, 5, 6, and 9 for a list that is not three words a matrix.
///
/// ```
/// # fn main() -> Result<(), legrudda::Error> {
/// let (plan, records) = legrudda::layout::plan(1, 1, &[1, 2, 0, 2, 0, 1])?;
/// assert_eq!((plan.width, plan.height, plan.columns), (2, 4, 3));
/// let starts: Vec<_> = records.iter().map(|record| record.decode().slice.row_idx).collect();
/// assert_eq!(starts, [0, 0, 2]);
/// # Ok(())
/// # }
/// ```
pub fn plan(l_skip: u32, n_stack: u32, list: &[u32]) -> Result<(Plan, Vec<Record>), Error> {
    let mut records = records_of(list);
    let plan = plan_into(l_skip, n_stack, list, &mut records)?;
    Ok((plan, records))
}

/// A record a column, to be written.
fn records_of(list: &[u32]) -> Vec<Record> {
    // A list of more is refused before the room for its records is looked at.
    const MOST: usize = 4096;
    let widths = list.chunks_exact(3).map(|matrix| matrix[0] as usize);
    let columns = widths.fold(0, usize::saturating_add).min(MOST);
    vec![Record::default(); columns]
}

/// [`plan`] into lent records, of which there are as many as the list has columns.
///
/// # Errors
///
/// Numbers 1, 2, 4, 5, 6 and 9; the records stay as they were.
///
/// ```
/// # fn main() -> Result<(), legrudda::Error> {
/// use legrudda::{layout, Error};
///
/// let (list, mut records) = ([1, 2, 0, 2, 0, 1], [layout::Record::default(); 3]);
/// layout::plan_into(1, 1, &list, &mut records)?;
/// assert_eq!(records[1].to_string(), "00010000010000000000000000000000");
/// assert_eq!(layout::plan_into(1, 1, &list, &mut records[..2]), Err(Error::WrongLength));
/// # Ok(())
/// # }
/// ```
pub fn plan_into(
    l_skip: u32,
    n_stack: u32,
    list: &[u32],
    records: &mut [Record],
) -> Result<Plan, Error> {
    let (words, count) = Record::words(records);
    // SAFETY: each pointer and count are of one slice, a record being two words, and `records` is lent to this call alone.
    let plan =
        unsafe { ffi::legrudda_plan(l_skip, n_stack, list.as_ptr(), list.len(), words, count) };
    plan.checked()
}

/// The plan of a list that came in whatever order. It is that of the ordered list, which [`ordered`] gives.
///
/// ```
/// # fn main() -> Result<(), legrudda::Error> {
/// use legrudda::layout::{self, Unsorted};
///
/// let list = [2, 0, 1, 1, 2, 0];
/// let Unsorted { plan, arrivals, records } = layout::plan_unsorted(1, 1, &list)?;
/// // The higher matrix, which came at position 1, has place 0.
/// assert_eq!(arrivals, [1, 0]);
/// assert_eq!(layout::plan(1, 1, &[1, 2, 0, 2, 0, 1])?, (plan, records));
/// # Ok(())
/// # }
/// ```
#[derive(Clone, Debug, PartialEq, Eq)]
pub struct Unsorted {
    /// The size of the stacked matrix.
    pub plan: Plan,
    /// For each place of the ordered list the position, from 0, at which its matrix came.
    pub arrivals: Vec<u32>,
    /// A record for each column of the ordered list; its matrix is a place there.
    pub records: Vec<Record>,
}

/// Plans a commitment whose matrices come in whatever order: orders them by falling log height, the wider first among
/// equals, then the earlier arrival, and plans the ordered list. A matrix of width 0 is the last of its height. A list of no
/// column is taken. [`plan`] plans a list in the order in which it stands.
///
/// # Errors
///
/// Numbers 1, 2, 4, and 9 for a list that is not three words a matrix; never 6.
///
/// ```
/// # fn main() -> Result<(), legrudda::Error> {
/// use legrudda::{layout, Error};
///
/// // Log heights 0, 1 and 1 again, which is the wider one.
/// let list = [1, 0, 0, 1, 1, 0, 2, 1, 1];
/// assert_eq!(layout::plan(0, 2, &list), Err(Error::LayoutRowOverflow));
/// let unsorted = layout::plan_unsorted(0, 2, &list)?;
/// assert_eq!((unsorted.plan.width, unsorted.plan.height, unsorted.plan.columns), (2, 4, 4));
/// assert_eq!(unsorted.arrivals, [2, 1, 0]);
/// let last = unsorted.records[3].decode();
/// assert_eq!((last.mat_idx, last.slice.col_idx, last.slice.row_idx), (2, 1, 2));
/// # Ok(())
/// # }
/// ```
pub fn plan_unsorted(l_skip: u32, n_stack: u32, list: &[u32]) -> Result<Unsorted, Error> {
    let mut arrivals = vec![0; list.len() / 3];
    let mut records = records_of(list);
    let plan = plan_unsorted_into(l_skip, n_stack, list, &mut arrivals, &mut records)?;
    Ok(Unsorted {
        plan,
        arrivals,
        records,
    })
}

/// [`plan_unsorted`] into lent slices: `arrivals` has a word a matrix, `records` a record a column.
///
/// # Errors
///
/// Numbers 1, 2, 4 and 9, never 6; both slices stay as they were.
///
/// ```
/// # fn main() -> Result<(), legrudda::Error> {
/// use legrudda::{layout, Error};
///
/// let (list, mut arrivals, mut records) = ([2, 0, 1, 1, 2, 0], [7; 2], [layout::Record::default(); 3]);
/// let short = layout::plan_unsorted_into(1, 1, &list, &mut arrivals[..1], &mut records);
/// assert_eq!((short, arrivals), (Err(Error::WrongLength), [7, 7]));
/// layout::plan_unsorted_into(1, 1, &list, &mut arrivals, &mut records)?;
/// assert_eq!(arrivals, [1, 0]);
/// assert_eq!(records[1].to_string(), "00010000010000000000000000000000");
/// # Ok(())
/// # }
/// ```
pub fn plan_unsorted_into(
    l_skip: u32,
    n_stack: u32,
    list: &[u32],
    arrivals: &mut [u32],
    records: &mut [Record],
) -> Result<Plan, Error> {
    let arrivals_len = arrivals.len();
    let (words, count) = Record::words(records);
    // SAFETY: each pointer and count are of one slice, a record being two words, and `arrivals` and `records` are lent to
    // this call alone.
    let plan = unsafe {
        ffi::legrudda_plan_unsorted(
            l_skip,
            n_stack,
            list.as_ptr(),
            list.len(),
            arrivals.as_mut_ptr(),
            arrivals_len,
            words,
            count,
        )
    };
    plan.checked()
}

/// The matrices of a list at these positions, one after another: with the arrivals of [`plan_unsorted`] the ordered list,
/// which the other calls take.
///
/// # Panics
///
/// If the list has no such position.
///
/// ```
/// # fn main() -> Result<(), legrudda::Error> {
/// use legrudda::layout;
///
/// let list = [2, 0, 1, 1, 2, 0];
/// let unsorted = layout::plan_unsorted(1, 1, &list)?;
/// let ordered = layout::ordered(&list, &unsorted.arrivals);
/// assert_eq!(ordered, [1, 2, 0, 2, 0, 1]);
/// assert_eq!(layout::get(1, 1, &ordered, 1, 0)?, unsorted.records[1].decode().slice);
/// # Ok(())
/// # }
/// ```
pub fn ordered(list: &[u32], arrivals: &[u32]) -> Vec<u32> {
    let matrix = |position: &u32| &list[3 * *position as usize..][..3];
    arrivals.iter().flat_map(matrix).copied().collect()
}

/// Where column `col_idx` of matrix `mat_idx` lies.
///
/// # Errors
///
/// Numbers 1, 2, 4, 5, 6, 9 and 11.
///
/// ```
/// # fn main() -> Result<(), legrudda::Error> {
/// use legrudda::{layout, Error};
///
/// let list = [1, 2, 0, 2, 0, 1];
/// let slice = layout::get(1, 1, &list, 1, 0)?;
/// assert_eq!((slice.col_idx, slice.row_idx, slice.log_height), (1, 0, 0));
/// assert_eq!(layout::get(1, 1, &list, 1, 2), Err(Error::NoSuchColumn));
/// # Ok(())
/// # }
/// ```
pub fn get(
    l_skip: u32,
    n_stack: u32,
    list: &[u32],
    mat_idx: usize,
    col_idx: usize,
) -> Result<Slice, Error> {
    // SAFETY: the pointer and count are of one slice.
    let got =
        unsafe { ffi::legrudda_get(l_skip, n_stack, list.as_ptr(), list.len(), mat_idx, col_idx) };
    Error::check_number(got.number)?;
    Ok(Slice {
        col_idx: got.col_idx,
        row_idx: got.row_idx,
        log_height: got.log_height,
    })
}

/// Stacks traces. `traces` is a list with heights in place of log heights, `cells` their words, matrix by matrix, column
/// by column; `q_mat` has width times H words, stack column by stack column. Unused rows are written as zeros.
///
/// # Errors
///
/// Numbers 1 to 7, 9 and 10; `q_mat` stays as it was.
///
/// ```
/// # fn main() -> Result<(), legrudda::Error> {
/// let mut q_mat = [0; 8];
/// legrudda::layout::stacked_matrix(1, 1, &[1, 4, 0, 2, 1, 1], &[5, 6, 7, 8, 9, 3], &mut q_mat)?;
/// assert_eq!(q_mat, [5, 6, 7, 8, 9, 0, 3, 0]);
/// # Ok(())
/// # }
/// ```
pub fn stacked_matrix(
    l_skip: u32,
    n_stack: u32,
    traces: &[u32],
    cells: &[u32],
    q_mat: &mut [u32],
) -> Result<Plan, Error> {
    let q_mat_len = q_mat.len();
    // SAFETY: each pointer and count are of one slice, and `q_mat` is lent to this call alone.
    let plan = unsafe {
        ffi::legrudda_stacked_matrix(
            l_skip,
            n_stack,
            traces.as_ptr(),
            traces.len(),
            cells.as_ptr(),
            cells.len(),
            q_mat.as_mut_ptr(),
            q_mat_len,
        )
    };
    plan.checked()
}

/// The bounds of a matrix's view: the part of the stacked matrix that holds its columns, `&stacked[range]`.
///
/// # Errors
///
/// Numbers 1, 2, 4, 5, 6, 9, 10 and 11, the last for a matrix of width 0 too.
///
/// ```
/// # fn main() -> Result<(), legrudda::Error> {
/// let stacked = [5, 6, 7, 8, 9, 0, 3, 0];
/// let range = legrudda::layout::mat_place(1, 1, &[1, 2, 0, 2, 0, 1], &stacked, 1)?;
/// assert_eq!(stacked[range], [9, 0, 3, 0]);
/// # Ok(())
/// # }
/// ```
pub fn mat_place(
    l_skip: u32,
    n_stack: u32,
    list: &[u32],
    stacked: &[u32],
    mat_idx: usize,
) -> Result<Range<usize>, Error> {
    // SAFETY: each pointer and count are of one slice.
    let place = unsafe {
        ffi::legrudda_mat_place(
            l_skip,
            n_stack,
            list.as_ptr(),
            list.len(),
            stacked.as_ptr(),
            stacked.len(),
            mat_idx,
        )
    };
    Error::check_number(place.number)?;
    Ok(place.start..place.start + place.len)
}
