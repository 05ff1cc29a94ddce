//! Run lists as records instead of words: [`contains`] and [`count`] as in [`bitmap`](crate::bitmap).
//!
//! Every call validates its list: `TooLong` if it has more than [`MAX_RANGES`] records; then, from front to back, `EmptyRun` for a record whose end
//! is not above its start, and `RunOrder` for a record whose start is not above the previous end.
pub use crate::raw::RowRange;
use crate::{Refusal, accepted, raw};

/// The maximum number of records of a list.
pub const MAX_RANGES: usize = 268_435_455;

/// Whether a row is in a list. Row 2^64 - 1 never is.
///
/// ```
/// use mudcanvas::ranges::{self, RowRange};
///
/// let runs = [RowRange { start: 2, end: 4 }];
/// assert_eq!(ranges::contains(&runs, 3), Ok(true));
/// assert_eq!(ranges::contains(&runs, 4), Ok(false));
/// ```
///
/// # Errors
///
/// In this order: `TooLong`; `EmptyRun` or `RunOrder`, from front to back.
pub fn contains(ranges: &[RowRange], row: u64) -> Result<bool, Refusal> {
    // SAFETY: the pointer and the length are those of a slice.
    let answer = unsafe { raw::mudcanvas_raw_ranges_contains(ranges.as_ptr(), ranges.len(), row) };
    accepted(answer.refusal, answer.yes)
}

/// The number of rows in a list.
///
/// ```
/// use mudcanvas::Refusal;
/// use mudcanvas::ranges::{self, RowRange};
///
/// let runs = [RowRange { start: 2, end: 4 }, RowRange { start: 7, end: 8 }];
/// assert_eq!(ranges::count(&runs), Ok(3));
/// let touching = [RowRange { start: 2, end: 4 }, RowRange { start: 4, end: 8 }];
/// assert_eq!(ranges::count(&touching), Err(Refusal::RunOrder));
/// ```
///
/// # Errors
///
/// In this order: `TooLong`; `EmptyRun` or `RunOrder`, from front to back.
pub fn count(ranges: &[RowRange]) -> Result<u64, Refusal> {
    // SAFETY: the pointer and the length are those of a slice.
    unsafe { raw::mudcanvas_raw_ranges_count(ranges.as_ptr(), ranges.len()) }.into()
}
