use crate::{ffi, Error};

/// The lengths, in words, of what a run over given lists and the verdict on it are lent.
///
/// ```
/// # fn main() -> Result<(), legrudda::Error> {
/// // One column of log height 1 at l_skip 0 and n_stack 1.
/// let legrudda::Room { q_evals, openings, observed, .. } = legrudda::room(0, 1, &[1], &[1, 1, 0])?;
/// assert_eq!((q_evals, openings, observed), (8, 4, 16));
/// # Ok(())
/// # }
/// ```
#[derive(Clone, Copy, Debug, Default, PartialEq, Eq)]
#[non_exhaustive]
pub struct Room {
    /// The point r: n_stack + 1 elements.
    pub r: usize,
    /// 4·2^n_stack words a stack column.
    pub q_evals: usize,
    /// 4·2^n_lift words a distinct height.
    pub eq_r: usize,
    /// As many as `eq_r`.
    pub k_rot_r: usize,
    /// Four words a column.
    pub eq_ub: usize,
    /// The stacked matrices: 2^(l_skip + n_stack) words a stack column.
    pub matrices: usize,
    /// Four words a stack column.
    pub openings: usize,
    /// u_0 to u_n_stack.
    pub challenges: usize,
    /// Eight words a column of a flagged matrix, else four.
    pub claims: usize,
    /// The first polynomial: 2^(l_skip + 1) − 1 elements.
    pub coefficients: usize,
    /// Eight words a round.
    pub pairs: usize,
    /// Coefficients, pairs and openings.
    pub observed: usize,
}

/// What a run over these lists and its verdict are lent: proved to be the lengths that their calls ask for.
///
/// # Errors
///
/// The number of the lists: 1, 2, 4 to 7, then 9.
///
/// ```
/// use legrudda::{room, Error};
///
/// assert_eq!(room(0, 1, &[1], &[1, 1, 0]).unwrap().eq_r, 8);
/// assert_eq!(room(11, 0, &[1], &[1, 1, 0]), Err(Error::LimitExceeded));
/// ```
pub fn room(l_skip: u32, n_stack: u32, counts: &[u32], lists: &[u32]) -> Result<Room, Error> {
    // SAFETY: each pointer and count are of one slice.
    let room = unsafe {
        ffi::legrudda_room(
            l_skip,
            n_stack,
            counts.as_ptr(),
            counts.len(),
            lists.as_ptr(),
            lists.len(),
        )
    };
    Error::check_number(room.number)?;
    Ok(Room {
        r: room.r,
        q_evals: room.q_evals,
        eq_r: room.eq_r,
        k_rot_r: room.eq_r,
        eq_ub: room.eq_ub,
        matrices: room.matrices,
        openings: room.openings,
        challenges: room.challenges,
        claims: room.claims,
        coefficients: room.coefficients,
        pairs: room.pairs,
        observed: room.observed,
    })
}

/// The library's version: major, minor and patch.
///
/// ```
/// let (major, minor, patch) = legrudda::version();
/// assert_eq!(format!("{major}.{minor}.{patch}"), env!("CARGO_PKG_VERSION"));
/// ```
pub fn version() -> (u32, u32, u32) {
    let version = ffi::legrudda_version();
    (version >> 16, version >> 8 & 0xff, version & 0xff)
}
