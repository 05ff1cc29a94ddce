//! Rank and select over run lists, with a directory in a caller-supplied buffer.
//!
//! [`rank`] at a position is the number of rows of the list below it. The position itself is not counted, unlike in CRoaring, whose rank counts it.
//!
//! The directory of a run list has one word for each run, the number of rows in the runs before it, and then the total, the number of rows in all
//! runs. [`directory`] writes it once; the other calls take it. A directory without the total, as versions before 0.3 wrote it, is refused.
//!
//! Each call validates its whole run list (see [`bitmap`](crate::bitmap)) and compares the whole directory with it. So ask for many positions in one
//! call rather than for one position in many calls.
use crate::bitmap::MAX_WORDS;
use crate::{Refusal, least, raw};

/// Writes the directory of a run list. Returns its number of words: one for each run, and one more, the total.
///
/// ```
/// use mudcanvas::rank;
///
/// let mut directory = [0; rank::directory_bound(4)];
/// assert_eq!(rank::directory(&[2, 4, 7, 8], &mut directory), Ok(3));
/// assert_eq!(directory, [0, 2, 3]);
/// ```
///
/// # Errors
///
/// In this order: `TooLong`; `OddWords`; `EmptyRun` or `RunOrder`, from front to back; `NoRoom` if `out` has no more words than the list has runs.
pub fn directory(runs: &[u64], out: &mut [u64]) -> Result<usize, Refusal> {
    // SAFETY: pointers and lengths are those of slices, and a mutable slice overlaps no other.
    unsafe { raw::mudcanvas_raw_run_directory(runs.as_ptr(), runs.len(), out.as_mut_ptr(), out.len()) }.into()
}

/// The output length in words that [`directory`] needs, from the number of words of its list.
///
/// An output of this length is never refused with `NoRoom`; a shorter one is always refused.
#[must_use]
pub const fn directory_bound(runs_len: usize) -> usize {
    (least(runs_len, MAX_WORDS) / 2).saturating_add(1)
}

/// Writes for each position the number of rows of the list below it, the position itself not counted. Returns the number of positions.
///
/// ```
/// use mudcanvas::rank;
///
/// let positions = [0, 2, 3, 4, 8];
/// let mut out = vec![0; rank::rank_bound(positions.len())];
/// rank::rank(&[2, 4, 7, 8], &[0, 2, 3], &positions, &mut out)?;
/// assert_eq!(out, [0, 0, 1, 2, 3]);
/// # Ok::<(), mudcanvas::Refusal>(())
/// ```
///
/// # Errors
///
/// In this order: `TooLong`; `OddWords`; `EmptyRun` or `RunOrder`, from front to back; `OtherDirectory` if `directory` is not the directory of the
/// list; `NoRoom` if `out` has fewer words than there are positions.
pub fn rank(runs: &[u64], directory: &[u64], positions: &[u64], out: &mut [u64]) -> Result<usize, Refusal> {
    // SAFETY: pointers and lengths are those of slices, and a mutable slice overlaps no other.
    unsafe {
        raw::mudcanvas_raw_run_rank(
            runs.as_ptr(),
            runs.len(),
            directory.as_ptr(),
            directory.len(),
            positions.as_ptr(),
            positions.len(),
            out.as_mut_ptr(),
            out.len(),
        )
    }
    .into()
}

/// The output length in words that [`rank`] needs, from the number of its positions.
///
/// An output of this length is never refused with `NoRoom`; a shorter one is always refused.
#[must_use]
pub const fn rank_bound(positions_len: usize) -> usize {
    positions_len
}

/// Writes for each position k the row that has k rows of the list below it, or [`NONE`](crate::NONE) if there is no such row. Returns the number of
/// positions.
///
/// ```
/// use mudcanvas::{rank, some};
///
/// let mut out = [0; rank::select_bound(4)];
/// rank::select(&[2, 4, 7, 8], &[0, 2, 3], &[0, 1, 2, 3], &mut out)?;
/// assert_eq!(out.map(some), [Some(2), Some(3), Some(7), None]);
/// # Ok::<(), mudcanvas::Refusal>(())
/// ```
///
/// # Errors
///
/// In this order: `TooLong`; `OddWords`; `EmptyRun` or `RunOrder`, from front to back; `OtherDirectory` if `directory` is not the directory of the
/// list; `NoRoom` if `out` has fewer words than there are positions.
pub fn select(runs: &[u64], directory: &[u64], positions: &[u64], out: &mut [u64]) -> Result<usize, Refusal> {
    // SAFETY: pointers and lengths are those of slices, and a mutable slice overlaps no other.
    unsafe {
        raw::mudcanvas_raw_run_select(
            runs.as_ptr(),
            runs.len(),
            directory.as_ptr(),
            directory.len(),
            positions.as_ptr(),
            positions.len(),
            out.as_mut_ptr(),
            out.len(),
        )
    }
    .into()
}

/// The output length in words that [`select`] needs, from the number of its positions.
///
/// An output of this length is never refused with `NoRoom`; a shorter one is always refused.
#[must_use]
pub const fn select_bound(positions_len: usize) -> usize {
    positions_len
}

/// Writes for each position the number of rows of the list below it to `out`, and 1 or 0 to `flags` as the position is in the list or not. Returns
/// the number of positions.
///
/// ```
/// use mudcanvas::rank;
///
/// let (mut out, mut flags) = ([0; rank::rank_and_contains_bound(3)], [9; rank::rank_and_contains_bound(3)]);
/// rank::rank_and_contains(&[2, 4, 7, 8], &[0, 2, 3], &[3, 4, 7], &mut out, &mut flags)?;
/// assert_eq!((out, flags), ([1, 2, 2], [1, 0, 1]));
/// # Ok::<(), mudcanvas::Refusal>(())
/// ```
///
/// # Errors
///
/// In this order: `TooLong`; `OddWords`; `EmptyRun` or `RunOrder`, from front to back; `OtherDirectory` if `directory` is not the directory of the
/// list; `NoRoom` if `out` or `flags` has fewer words than there are positions.
pub fn rank_and_contains(runs: &[u64], directory: &[u64], positions: &[u64], out: &mut [u64], flags: &mut [u64]) -> Result<usize, Refusal> {
    // SAFETY: pointers and lengths are those of slices, and a mutable slice overlaps no other.
    unsafe {
        raw::mudcanvas_raw_run_rank_and_contains(
            runs.as_ptr(),
            runs.len(),
            directory.as_ptr(),
            directory.len(),
            positions.as_ptr(),
            positions.len(),
            out.as_mut_ptr(),
            out.len(),
            flags.as_mut_ptr(),
            flags.len(),
        )
    }
    .into()
}

/// The length in words that [`rank_and_contains`] needs of its output and of its flags, from the number of its positions.
///
/// Buffers of this length are never refused with `NoRoom`; a shorter one is always refused.
#[must_use]
pub const fn rank_and_contains_bound(positions_len: usize) -> usize {
    positions_len
}
