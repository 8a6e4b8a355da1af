use std::fmt;

/// Where a column lies in the stacked matrix.
///
/// ```
/// # fn main() -> Result<(), legrudda::Error> {
/// use legrudda::layout::{self, Slice};
///
/// let slice = layout::get(1, 1, &[1, 2, 0, 2, 0, 1], 1, 1)?;
/// assert_eq!(slice, Slice { col_idx: 1, row_idx: 2, log_height: 0 });
/// # Ok(())
/// # }
/// ```
#[derive(Clone, Copy, Debug, PartialEq, Eq)]
pub struct Slice {
    /// The stack column.
    pub col_idx: u32,
    /// The starting row.
    pub row_idx: u32,
    /// The column's log height.
    pub log_height: u32,
}

/// A column's record in a plan, packed into two words; [`decode`](Record::decode) gives its fields. Most significant first
/// these are matrix (16 bits), column (12), stack column (12) and starting row (24) in the first word, and log height (5)
/// with zeros below in the second.
///
/// It is displayed in hexadecimal, first word first, as the program `plan` prints it.
///
/// ```
/// # fn main() -> Result<(), legrudda::Error> {
/// let (_, records) = legrudda::layout::plan(1, 1, &[1, 2, 0, 2, 0, 1])?;
/// assert_eq!(records[2].to_string(), "00010010010000020000000000000000");
/// # Ok(())
/// # }
/// ```
#[derive(Clone, Copy, Default, PartialEq, Eq, Hash)]
#[repr(transparent)]
pub struct Record([u64; 2]);

impl Record {
    /// The record's fields.
    ///
    /// ```
    /// # fn main() -> Result<(), legrudda::Error> {
    /// use legrudda::layout;
    ///
    /// let list = [1, 2, 0, 2, 0, 1];
    /// let (_, records) = layout::plan(1, 1, &list)?;
    /// let column = records[2].decode();
    /// assert_eq!((column.mat_idx, column.col_idx), (1, 1));
    /// assert_eq!(column.slice, layout::get(1, 1, &list, 1, 1)?);
    /// # Ok(())
    /// # }
    /// ```
    pub fn decode(self) -> Placed {
        let [first, second] = self.0;
        let field = |lowest: u32, bits: u32| (first >> lowest) as u32 & ((1 << bits) - 1);
        Placed {
            mat_idx: field(48, 16) as usize,
            col_idx: field(36, 12) as usize,
            slice: Slice {
                col_idx: field(24, 12),
                row_idx: field(0, 24),
                log_height: (second >> 59) as u32,
            },
        }
    }

    /// Pointer and count of the words of records, as the library takes them.
    pub(crate) fn words(records: &mut [Record]) -> (*mut u64, usize) {
        (records.as_mut_ptr().cast(), 2 * records.len())
    }
}

impl fmt::Display for Record {
    fn fmt(&self, f: &mut fmt::Formatter<'_>) -> fmt::Result {
        let [first, second] = self.0;
        write!(f, "{first:016x}{second:016x}")
    }
}

impl fmt::Debug for Record {
    fn fmt(&self, f: &mut fmt::Formatter<'_>) -> fmt::Result {
        self.decode().fmt(f)
    }
}

/// A column and where it lies: the fields of a [`Record`].
///
/// ```
/// # fn main() -> Result<(), legrudda::Error> {
/// use legrudda::layout::{self, Placed, Slice};
///
/// let (_, records) = layout::plan(1, 1, &[1, 2, 0, 2, 0, 1])?;
/// let slice = Slice { col_idx: 1, row_idx: 0, log_height: 0 };
/// assert_eq!(records[1].decode(), Placed { mat_idx: 1, col_idx: 0, slice });
/// # Ok(())
/// # }
/// ```
#[derive(Clone, Copy, Debug, PartialEq, Eq)]
pub struct Placed {
    /// The matrix.
    pub mat_idx: usize,
    /// The column in its matrix.
    pub col_idx: usize,
    /// The column's place in the stacked matrix.
    pub slice: Slice,
}
