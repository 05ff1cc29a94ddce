//! Run lists: set operations, membership, places, counts and neighbours; and blocks, which are run lists in bytes.
//!
//! # Run lists
//!
//! A run list is a slice of words: start, end, start, end. Each start is below its end and above the previous end. The empty slice is the empty set.
//!
//! Every call validates its run lists, each in this order: `TooLong` if it has more than [`MAX_WORDS`] words; `OddWords` if their number is odd;
//! then, from front to back, `EmptyRun` for a run whose end is not above its start, and `RunOrder` for a run whose start is not above the previous
//! end.
//!
//! # Blocks
//!
//! | bytes | contents |
//! |---|---|
//! | 4 | the number of runs |
//! | 16 for each run | its start, then its end, 8 bytes each |
//!
//! Numbers are little-endian. A block of n runs has 4 + 16 n bytes; bytes after the last run are ignored. Four zero bytes are the block of the empty
//! set.
use crate::{Refusal, accepted, least, raw, some};
use core::ops::Range;

/// The maximum number of words of a run list, two for each run.
pub const MAX_WORDS: usize = 536_870_910;

/// The maximum number of bytes of a block.
pub const MAX_BLOCK: usize = 4_294_967_295;

/// Writes the union of two run lists: the rows in either list. Returns its number of words.
///
/// ```
/// use mudcanvas::bitmap;
///
/// let (left, right) = ([0, 3, 5, 6], [3, 5]);
/// let mut out = vec![0; bitmap::union_bound(left.len(), right.len())];
/// let n = bitmap::union(&left, &right, &mut out)?;
/// assert_eq!(out[..n], [0, 6]);
/// # Ok::<(), mudcanvas::Refusal>(())
/// ```
///
/// # Errors
///
/// In this order: `TooLong` for `left`, then for `right`; `OddWords`, then `EmptyRun` or `RunOrder` from front to back, for `left`, then for `right`;
/// `NoRoom` if `out` does not have room for the result, or the result has more than [`MAX_WORDS`] words.
pub fn union(left: &[u64], right: &[u64], out: &mut [u64]) -> Result<usize, Refusal> {
    // SAFETY: pointers and lengths are those of slices, and a mutable slice overlaps no other.
    unsafe { raw::mudcanvas_raw_union(left.as_ptr(), left.len(), right.as_ptr(), right.len(), out.as_mut_ptr(), out.len()) }.into()
}

/// An output length in words for [`union`], from the lengths of its lists.
///
/// An output of this length is never refused with `NoRoom`, except for a result of more than [`MAX_WORDS`] words.
#[must_use]
pub const fn union_bound(left_len: usize, right_len: usize) -> usize {
    least(MAX_WORDS, left_len.saturating_add(right_len))
}

/// Writes the intersection of two run lists: the rows in both lists. Returns its number of words.
///
/// ```
/// use mudcanvas::bitmap;
///
/// let mut out = [0; bitmap::intersect_bound(2, 2)];
/// let n = bitmap::intersect(&[0, 4], &[3, 8], &mut out)?;
/// assert_eq!(out[..n], [3, 4]);
/// // the end of a run is not one of its rows
/// assert_eq!(bitmap::intersect(&[0, 4], &[4, 8], &mut out), Ok(0));
/// # Ok::<(), mudcanvas::Refusal>(())
/// ```
///
/// # Errors
///
/// In this order: `TooLong` for `left`, then for `right`; `OddWords`, then `EmptyRun` or `RunOrder` from front to back, for `left`, then for `right`;
/// `NoRoom` if `out` does not have room for the result, or the result has more than [`MAX_WORDS`] words.
pub fn intersect(left: &[u64], right: &[u64], out: &mut [u64]) -> Result<usize, Refusal> {
    // SAFETY: pointers and lengths are those of slices, and a mutable slice overlaps no other.
    unsafe { raw::mudcanvas_raw_intersect(left.as_ptr(), left.len(), right.as_ptr(), right.len(), out.as_mut_ptr(), out.len()) }.into()
}

/// An output length in words for [`intersect`], from the lengths of its lists.
///
/// An output of this length is never refused with `NoRoom`, except for a result of more than [`MAX_WORDS`] words.
#[must_use]
pub const fn intersect_bound(left_len: usize, right_len: usize) -> usize {
    least(MAX_WORDS, left_len.saturating_add(right_len))
}

/// Writes the difference of two run lists: the rows in the left list and not in the right one. Returns its number of words.
///
/// ```
/// use mudcanvas::bitmap;
///
/// let mut out = [0; bitmap::difference_bound(2, 4)];
/// let n = bitmap::difference(&[0, 10], &[2, 3, 5, 12], &mut out)?;
/// assert_eq!(out[..n], [0, 2, 3, 5]);
/// # Ok::<(), mudcanvas::Refusal>(())
/// ```
///
/// # Errors
///
/// In this order: `TooLong` for `left`, then for `right`; `OddWords`, then `EmptyRun` or `RunOrder` from front to back, for `left`, then for `right`;
/// `NoRoom` if `out` does not have room for the result, or the result has more than [`MAX_WORDS`] words.
pub fn difference(left: &[u64], right: &[u64], out: &mut [u64]) -> Result<usize, Refusal> {
    // SAFETY: pointers and lengths are those of slices, and a mutable slice overlaps no other.
    unsafe { raw::mudcanvas_raw_difference(left.as_ptr(), left.len(), right.as_ptr(), right.len(), out.as_mut_ptr(), out.len()) }.into()
}

/// An output length in words for [`difference`], from the lengths of its lists.
///
/// An output of this length is never refused with `NoRoom`, except for a result of more than [`MAX_WORDS`] words.
#[must_use]
pub const fn difference_bound(left_len: usize, right_len: usize) -> usize {
    least(MAX_WORDS, left_len.saturating_add(right_len))
}

/// Whether a row is in a run list. Row 2^64 - 1 never is.
///
/// ```
/// assert_eq!(mudcanvas::bitmap::contains(&[2, 4], 3), Ok(true));
/// assert_eq!(mudcanvas::bitmap::contains(&[2, 4], 4), Ok(false));
/// ```
///
/// # Errors
///
/// In this order: `TooLong`; `OddWords`; `EmptyRun` or `RunOrder`, from front to back.
pub fn contains(runs: &[u64], row: u64) -> Result<bool, Refusal> {
    // SAFETY: the pointer and the length are those of a slice.
    let answer = unsafe { raw::mudcanvas_raw_contains(runs.as_ptr(), runs.len(), row) };
    accepted(answer.refusal, answer.yes)
}

/// What [`search`] finds: where a row is among the runs.
#[derive(Clone, Copy, Debug, PartialEq, Eq)]
pub struct Place {
    /// The number of runs whose start is at or below the row.
    pub begun: usize,
    /// Whether the row is listed.
    pub listed: bool,
}

/// Where a row is among the runs of a list.
///
/// Run i is the words 2 i and 2 i + 1 of the list. A listed row is in run `begun - 1`. Any other is in the gap between run `begun - 1` and run `begun`: at the
/// end of the one or past it, and before the start of the other. The first gap has no run before it, and the last none after it.
///
/// ```
/// use mudcanvas::bitmap::{self, Place};
///
/// let runs = [2, 4, 7, 8];
/// assert_eq!(bitmap::search(&runs, 3), Ok(Place { begun: 1, listed: true }));
/// // the end of a run is not one of its rows
/// assert_eq!(bitmap::search(&runs, 4), Ok(Place { begun: 1, listed: false }));
/// assert_eq!(bitmap::search(&runs, 7), Ok(Place { begun: 2, listed: true }));
/// assert_eq!(bitmap::search(&runs, 0), Ok(Place { begun: 0, listed: false }));
///
/// // the gap that a missing row falls in: from the end of the run before it to the start of the run after it
/// let place = bitmap::search(&runs, 5)?;
/// assert_eq!((runs[2 * place.begun - 1], runs[2 * place.begun]), (4, 7));
/// # Ok::<(), mudcanvas::Refusal>(())
/// ```
///
/// # Errors
///
/// In this order: `TooLong`; `OddWords`; `EmptyRun` or `RunOrder`, from front to back.
pub fn search(runs: &[u64], row: u64) -> Result<Place, Refusal> {
    // SAFETY: the pointer and the length are those of a slice.
    let place = unsafe { raw::mudcanvas_raw_search(runs.as_ptr(), runs.len(), row) };
    // The number of runs is at most that of the words of a slice, so nothing is cut off.
    accepted(place.refusal, Place { begun: place.begun as usize, listed: place.listed })
}

/// The number of rows in a run list.
///
/// ```
/// use mudcanvas::{Refusal, bitmap};
///
/// assert_eq!(bitmap::count(&[2, 4, 7, 8]), Ok(3));
/// assert_eq!(bitmap::count(&[2, 4, 4, 8]), Err(Refusal::RunOrder));
/// ```
///
/// # Errors
///
/// In this order: `TooLong`; `OddWords`; `EmptyRun` or `RunOrder`, from front to back.
pub fn count(runs: &[u64]) -> Result<u64, Refusal> {
    // SAFETY: the pointer and the length are those of a slice.
    unsafe { raw::mudcanvas_raw_count(runs.as_ptr(), runs.len()) }.into()
}

/// What [`neighbours`] finds: the listed rows nearest to a row. If the row is listed itself, it is both.
#[derive(Clone, Copy, Debug, PartialEq, Eq)]
pub struct Nearest {
    /// The nearest listed row at or above the row; `None` if there is none.
    pub above: Option<u64>,
    /// The nearest listed row at or below the row; `None` if there is none.
    pub below: Option<u64>,
}

/// The nearest listed row at or above a row, and the nearest at or below it.
///
/// Given in place of a row, 2^64 - 1 is answered as rows are: no listed row is above it, and the last one is below it.
///
/// ```
/// use mudcanvas::bitmap::{self, Nearest};
///
/// let runs = [2, 4, 7, 8];
/// assert_eq!(bitmap::neighbours(&runs, 3), Ok(Nearest { above: Some(3), below: Some(3) }));
/// // the end of a run is not one of its rows
/// assert_eq!(bitmap::neighbours(&runs, 4), Ok(Nearest { above: Some(7), below: Some(3) }));
/// assert_eq!(bitmap::neighbours(&runs, 0), Ok(Nearest { above: Some(2), below: None }));
/// assert_eq!(bitmap::neighbours(&runs, u64::MAX), Ok(Nearest { above: None, below: Some(7) }));
/// ```
///
/// # Errors
///
/// In this order: `TooLong`; `OddWords`; `EmptyRun` or `RunOrder`, from front to back.
pub fn neighbours(runs: &[u64], row: u64) -> Result<Nearest, Refusal> {
    // SAFETY: the pointer and the length are those of a slice.
    let nearest = unsafe { raw::mudcanvas_raw_neighbours(runs.as_ptr(), runs.len(), row) };
    accepted(nearest.refusal, Nearest { above: some(nearest.above), below: some(nearest.below) })
}

/// The first run that shares a row with a range: its number in the list, counted from 0; `None` if no run does.
///
/// Run i is the words 2 i and 2 i + 1 of the list. A run that only touches the range shares no row with it.
///
/// ```
/// use mudcanvas::{Refusal, bitmap};
///
/// let runs = [2, 4, 7, 8];
/// assert_eq!(bitmap::first_overlap(&runs, 3..9), Ok(Some(0)));
/// assert_eq!(bitmap::first_overlap(&runs, 4..8), Ok(Some(1)));
/// assert_eq!(bitmap::first_overlap(&runs, 4..7), Ok(None));
/// assert_eq!(bitmap::first_overlap(&runs, 3..3), Err(Refusal::EmptyRun));
/// ```
///
/// # Errors
///
/// In this order: `TooLong`; `OddWords`; `EmptyRun` or `RunOrder`, from front to back; `EmptyRun` if the end of the range is not above its start.
pub fn first_overlap(runs: &[u64], range: Range<u64>) -> Result<Option<usize>, Refusal> {
    // SAFETY: the pointer and the length are those of a slice.
    let answer: Result<u64, Refusal> = unsafe { raw::mudcanvas_raw_first_overlap(runs.as_ptr(), runs.len(), range.start, range.end) }.into();
    // The number of a run is below that of the words of a slice, so nothing is cut off.
    answer.map(|number| some(number).map(|number| number as usize))
}

/// Writes the run list of a block. Returns its number of words.
///
/// ```
/// use mudcanvas::{Refusal, bitmap};
///
/// let block = [1, 0, 0, 0, 2, 0, 0, 0, 0, 0, 0, 0, 7, 0, 0, 0, 0, 0, 0, 0];
/// let mut out = vec![0; bitmap::decode_bound(block.len())];
/// assert_eq!(bitmap::decode(&block, &mut out), Ok(2));
/// assert_eq!(out, [2, 7]);
/// assert_eq!(bitmap::decode(&block[..19], &mut out), Err(Refusal::CutShort));
/// ```
///
/// # Errors
///
/// In this order: `TooLong` if the block has more than [`MAX_BLOCK`] bytes; then, in reading order, `CutShort` if the bytes end inside the number of
/// runs or inside a run, `EmptyRun`, `RunOrder`; `NoRoom` if `out` does not have room for the result.
pub fn decode(block: &[u8], out: &mut [u64]) -> Result<usize, Refusal> {
    // SAFETY: pointers and lengths are those of slices, and a mutable slice overlaps no other.
    unsafe { raw::mudcanvas_raw_block_decode(block.as_ptr(), block.len(), out.as_mut_ptr(), out.len()) }.into()
}

/// An output length in words for [`decode`], from the length of its block in bytes.
///
/// An output of this length is never refused with `NoRoom`.
#[must_use]
pub const fn decode_bound(block_len: usize) -> usize {
    (least(block_len, MAX_BLOCK).saturating_sub(4) / 16).saturating_mul(2)
}

/// Writes the block of a run list. Returns its number of bytes: 4, and 16 for each run.
///
/// ```
/// use mudcanvas::bitmap;
///
/// let mut block = [0; bitmap::encode_bound(2)];
/// assert_eq!(bitmap::encode(&[2, 7], &mut block), Ok(20));
/// assert_eq!(block[..12], [1, 0, 0, 0, 2, 0, 0, 0, 0, 0, 0, 0]);
/// ```
///
/// # Errors
///
/// In this order: `TooLong`; `OddWords`; `EmptyRun` or `RunOrder`, from front to back; `NoRoom` if `out` does not have room for the block.
pub fn encode(runs: &[u64], out: &mut [u8]) -> Result<usize, Refusal> {
    // SAFETY: pointers and lengths are those of slices, and a mutable slice overlaps no other.
    unsafe { raw::mudcanvas_raw_block_encode(runs.as_ptr(), runs.len(), out.as_mut_ptr(), out.len()) }.into()
}

/// The output length in bytes that [`encode`] needs, from the number of words of its list.
///
/// An output of this length is never refused with `NoRoom`; a shorter one is always refused.
#[must_use]
pub const fn encode_bound(runs_len: usize) -> usize {
    least(runs_len, MAX_WORDS).saturating_mul(8).saturating_add(4)
}
