//! Indexes: values with their run lists, in bytes; and filters over them.
//!
//! # Layout
//!
//! | bytes | contents |
//! |---|---|
//! | 4 | the number of entries |
//! | for each entry: 8 | its value |
//! | 4 | the length of its block in bytes |
//! | that length | its block, as in [`bitmap`](crate::bitmap#blocks) |
//!
//! Numbers are little-endian. Values strictly increase. Bytes after the last run of a block and after the last entry are ignored. The empty index is
//! [`EMPTY`], four zero bytes.
//!
//! Every call validates its whole index: `TooLong` if it has more than [`MAX_INDEX`] bytes; then, in reading order, `CutShort` if the bytes end
//! inside a field or block, `ValueOrder` for a value that is not above the previous one, `EmptyRun` and `RunOrder` for the runs of a block.
//!
//! # Filters
//!
//! A filter is a list of steps. The kept rows start empty, and each step changes them by the rows of one value. The index must have an entry for each
//! value that a step names, one without rows at least: else a mistyped value would change what is kept. [`filter`] takes the steps as words kind, value, kind, value: either written so, with the kinds [`TAKE`], [`AND`], [`OR`] and
//! [`WITHOUT`], or from a slice of [`Step`] by [`Step::words`].
use crate::{Refusal, accepted, least, raw};

/// The maximum number of bytes of an index.
pub const MAX_INDEX: usize = 4_294_967_295;

/// The maximum number of steps of [`filter`], and of values of [`intersect_values`].
pub const MAX_STEPS: usize = 4_096;

/// The empty index: no entries.
pub const EMPTY: [u8; 4] = [0; 4];

/// The step kind that replaces the kept rows by the rows of a value.
pub const TAKE: u64 = 1;

/// The step kind that keeps those of the kept rows that a value has.
pub const AND: u64 = 2;

/// The step kind that adds the rows of a value.
pub const OR: u64 = 3;

/// The step kind that removes the rows of a value.
pub const WITHOUT: u64 = 4;

/// A step of a filter, with the value whose rows it uses.
///
/// ```
/// use mudcanvas::index::{Step, TAKE, WITHOUT};
///
/// assert_eq!(Step::words(&[Step::Take(3), Step::Without(7)]), [TAKE, 3, WITHOUT, 7]);
/// ```
#[derive(Clone, Copy, Debug, PartialEq, Eq, Hash)]
#[repr(u64)]
pub enum Step {
    /// Replaces the kept rows by the rows of the value.
    Take(u64) = TAKE,
    /// Keeps those of the kept rows that the value has.
    And(u64) = AND,
    /// Adds the rows of the value.
    Or(u64) = OR,
    /// Removes the rows of the value.
    Without(u64) = WITHOUT,
}

const _: () = assert!(size_of::<Step>() == 16 && align_of::<Step>() == 8, "a step is its kind and its value, a word each");

impl Step {
    /// The steps as the words that [`filter`] takes: kind, value, kind, value. Nothing is copied.
    #[must_use]
    pub const fn words(steps: &[Step]) -> &[u64] {
        // A slice has at most isize::MAX bytes, so this does not saturate.
        let len = steps.len().saturating_mul(2);
        // SAFETY: an enum with fields and `repr(u64)` is laid out as a `repr(C)` union of `repr(C)` structs, each of which starts with the tag, a
        // `u64` (the Rust Reference, "Type layout", primitive representation of enums with fields). Here each struct is the tag and one `u64`: two
        // words without padding, as asserted above. So the slice is `len` initialised and aligned words, borrowed for as long as the steps are.
        unsafe { core::slice::from_raw_parts(steps.as_ptr().cast::<u64>(), len) }
    }
}

/// What [`decode`] counts in an index.
#[derive(Clone, Copy, Debug, PartialEq, Eq)]
pub struct Counts {
    /// The number of entries, one for each value.
    pub entries: u64,
    /// The number of runs of all entries together.
    pub runs: u64,
}

/// Validates an index and counts its entries and runs.
///
/// ```
/// use mudcanvas::index;
///
/// let counts = index::decode(&index::EMPTY)?;
/// assert_eq!((counts.entries, counts.runs), (0, 0));
/// # Ok::<(), mudcanvas::Refusal>(())
/// ```
///
/// # Errors
///
/// In this order: `TooLong`; then, in reading order, `CutShort`, `ValueOrder`, `EmptyRun`, `RunOrder`.
pub fn decode(index: &[u8]) -> Result<Counts, Refusal> {
    // SAFETY: the pointer and the length are those of a slice.
    let read = unsafe { raw::mudcanvas_raw_index_decode(index.as_ptr(), index.len()) };
    accepted(read.refusal, Counts { entries: read.entries, runs: read.runs })
}

/// The block of a value, as a part of the index. It is empty if the index does not have the value or is refused; [`decode`] tells which.
///
/// ```
/// use mudcanvas::{bitmap, index};
///
/// let mut bytes = [0; index::insert_bound(4, 2)];
/// let n = index::insert(&index::EMPTY, 7, &[2, 4], &mut bytes)?;
/// let block = index::bitmap(&bytes[..n], 7);
/// let mut runs = vec![0; bitmap::decode_bound(block.len())];
/// bitmap::decode(block, &mut runs)?;
/// assert_eq!(runs, [2, 4]);
/// assert!(index::bitmap(&bytes[..n], 8).is_empty());
/// # Ok::<(), mudcanvas::Refusal>(())
/// ```
#[must_use]
pub fn bitmap(index: &[u8], value: u64) -> &[u8] {
    // SAFETY: the pointer and the length are those of a slice.
    let part = unsafe { raw::mudcanvas_raw_index_bitmap(index.as_ptr(), index.len(), value) };
    part_of(index, part)
}

/// A part of an index, or an empty slice if it is not within the index.
fn part_of(index: &[u8], part: raw::Part) -> &[u8] {
    let end = part.at.saturating_add(part.len);
    index.get(part.at..end).unwrap_or_default()
}

/// Writes the index without the bytes that reading ignores. Returns its number of bytes.
///
/// ```
/// use mudcanvas::index;
///
/// let bytes = [0, 0, 0, 0, 9, 9];
/// let mut out = vec![0; index::encode_bound(bytes.len())];
/// let n = index::encode(&bytes, &mut out)?;
/// assert_eq!(out[..n], index::EMPTY);
/// # Ok::<(), mudcanvas::Refusal>(())
/// ```
///
/// # Errors
///
/// In this order: `TooLong`; then, in reading order, `CutShort`, `ValueOrder`, `EmptyRun`, `RunOrder`; `NoRoom` if `out` does not have room for the
/// result.
pub fn encode(index: &[u8], out: &mut [u8]) -> Result<usize, Refusal> {
    // SAFETY: pointers and lengths are those of slices, and a mutable slice overlaps no other.
    unsafe { raw::mudcanvas_raw_index_encode(index.as_ptr(), index.len(), out.as_mut_ptr(), out.len()) }.into()
}

/// An output length in bytes for [`encode`], from the length of its index.
///
/// An output of this length is never refused with `NoRoom`.
#[must_use]
pub const fn encode_bound(index_len: usize) -> usize {
    least(index_len, MAX_INDEX)
}

/// Writes the index with runs added to a value. Returns its number of bytes.
///
/// A value that the index has gets the union of its runs and these. A new value gets an entry, even if there are no runs. The result has no bytes
/// that reading ignores.
///
/// ```
/// use mudcanvas::index;
///
/// let mut first = vec![0; index::insert_bound(index::EMPTY.len(), 2)];
/// let n = index::insert(&index::EMPTY, 7, &[2, 4], &mut first)?;
/// first.truncate(n);
/// let mut second = vec![0; index::insert_bound(first.len(), 2)];
/// let n = index::insert(&first, 7, &[4, 9], &mut second)?;
/// assert_eq!(index::decode(&second[..n])?.runs, 1);
/// # Ok::<(), mudcanvas::Refusal>(())
/// ```
///
/// # Errors
///
/// In this order: `TooLong` for the index, then for more than [`bitmap::MAX_WORDS`](crate::bitmap::MAX_WORDS) words of runs; `CutShort`,
/// `ValueOrder`, `EmptyRun`, `RunOrder` for the index, in reading order; `OddWords`, then `EmptyRun` or `RunOrder` from front to back, for the runs;
/// `NoRoom` if `out` does not have room for the result, or the result has more than [`MAX_INDEX`] bytes.
pub fn insert(index: &[u8], value: u64, runs: &[u64], out: &mut [u8]) -> Result<usize, Refusal> {
    // SAFETY: pointers and lengths are those of slices, and a mutable slice overlaps no other.
    unsafe { raw::mudcanvas_raw_index_insert(index.as_ptr(), index.len(), value, runs.as_ptr(), runs.len(), out.as_mut_ptr(), out.len()) }.into()
}

/// An output length in bytes for [`insert`], from the length of its index and the number of words of its runs.
///
/// An output of this length is never refused with `NoRoom`, except for a result of more than [`MAX_INDEX`] bytes.
#[must_use]
pub const fn insert_bound(index_len: usize, runs_len: usize) -> usize {
    least(MAX_INDEX, index_len.saturating_add(16).saturating_add(runs_len.saturating_mul(8)))
}

/// Writes one index of two. Returns its number of bytes.
///
/// It has all values of both. A value that both have gets the union of its runs. An entry without runs stays an entry. The result has no bytes that
/// reading ignores.
///
/// ```
/// use mudcanvas::index;
///
/// let (mut first, mut second) = ([0; index::insert_bound(4, 2)], [0; index::insert_bound(4, 2)]);
/// index::insert(&index::EMPTY, 7, &[2, 7], &mut first)?;
/// index::insert(&index::EMPTY, 7, &[7, 8], &mut second)?;
/// let mut both = vec![0; index::merge_bound(first.len(), second.len())];
/// let n = index::merge(&first, &second, &mut both)?;
/// let counts = index::decode(&both[..n])?;
/// assert_eq!((counts.entries, counts.runs), (1, 1));
/// # Ok::<(), mudcanvas::Refusal>(())
/// ```
///
/// # Errors
///
/// In this order: `TooLong` for the first index, then for the second; `CutShort`, `ValueOrder`, `EmptyRun`, `RunOrder` for the first, in reading
/// order; the same for the second; `NoRoom` if `out` does not have room for the result, or the result has more than [`MAX_INDEX`] bytes.
pub fn merge(first: &[u8], second: &[u8], out: &mut [u8]) -> Result<usize, Refusal> {
    // SAFETY: pointers and lengths are those of slices, and a mutable slice overlaps no other.
    unsafe { raw::mudcanvas_raw_index_merge(first.as_ptr(), first.len(), second.as_ptr(), second.len(), out.as_mut_ptr(), out.len()) }.into()
}

/// An output length in bytes for [`merge`], from the lengths of both indexes.
///
/// An output of this length is never refused with `NoRoom`, except for a result of more than [`MAX_INDEX`] bytes.
#[must_use]
pub const fn merge_bound(first_len: usize, second_len: usize) -> usize {
    // One entry count of 4 bytes takes the place of two.
    least(MAX_INDEX, first_len.saturating_add(second_len).saturating_sub(4))
}

/// Writes the run list of the rows that the steps keep. Returns its number of words.
///
/// The output and the scratch must each have [`filter_bound`] words. Up to that number, the words after the result and all words of the scratch are
/// cleared to zero. See [filters](self#filters) for the steps.
///
/// ```
/// use mudcanvas::index::{self, Step, TAKE, WITHOUT};
///
/// let (mut first, mut second) = ([0; 52], [0; 84]);
/// index::insert(&index::EMPTY, 3, &[0, 4, 6, 9], &mut first)?;
/// index::insert(&first, 7, &[2, 7], &mut second)?;
///
/// let need = index::filter_bound(index::decode(&second)?.runs);
/// let (mut out, mut scratch) = (vec![0; need], vec![0; need]);
/// let n = index::filter(&second, Step::words(&[Step::Take(3), Step::Without(7)]), &mut out, &mut scratch)?;
/// assert_eq!(out[..n], [0, 2, 7, 9]);
/// // the same steps as plain words
/// let n = index::filter(&second, &[TAKE, 3, WITHOUT, 7], &mut out, &mut scratch)?;
/// assert_eq!(out[..n], [0, 2, 7, 9]);
/// // a mistyped value
/// assert_eq!(index::filter(&second, &[TAKE, 3, WITHOUT, 71], &mut out, &mut scratch), Err(mudcanvas::Refusal::MissingValue));
/// # Ok::<(), mudcanvas::Refusal>(())
/// ```
///
/// # Errors
///
/// In this order: `TooLong` for the index, then for more than [`MAX_STEPS`] steps; `CutShort`, `ValueOrder`, `EmptyRun`, `RunOrder` for the index, in
/// reading order; `OddWords`, then `StepKind` for the steps; `MissingValue` if any step names a value that the index has no entry for; `NoRoom` if `out`
/// or `scratch` has fewer than two words for each run of the index.
pub fn filter(index: &[u8], steps: &[u64], out: &mut [u64], scratch: &mut [u64]) -> Result<usize, Refusal> {
    // SAFETY: pointers and lengths are those of slices, and a mutable slice overlaps no other.
    unsafe {
        raw::mudcanvas_raw_filter(
            index.as_ptr(),
            index.len(),
            steps.as_ptr(),
            steps.len(),
            out.as_mut_ptr(),
            out.len(),
            scratch.as_mut_ptr(),
            scratch.len(),
        )
    }
    .into()
}

/// The length in words that [`filter`] needs of its output and of its scratch, from the number of runs that [`decode`] counts in the index.
///
/// Buffers of this length are never refused with `NoRoom`; a shorter one is always refused.
#[must_use]
pub const fn filter_bound(runs: u64) -> usize {
    two_words_each(runs)
}

/// Writes the run list of the rows that all values have; of no rows if there are no values, or the index lacks one of them. Returns its number of words.
///
/// The output and the scratch must each have [`intersect_values_bound`] words. They are cleared as by [`filter`].
///
/// ```
/// use mudcanvas::index;
///
/// let mut bytes = [0; 36];
/// index::insert(&index::EMPTY, 7, &[2, 4], &mut bytes)?;
/// let need = index::intersect_values_bound(index::decode(&bytes)?.runs);
/// let (mut out, mut scratch) = (vec![0; need], vec![0; need]);
/// assert_eq!(index::intersect_values(&bytes, &[7, 7], &mut out, &mut scratch), Ok(2));
/// assert_eq!(out, [2, 4]);
/// assert_eq!(index::intersect_values(&bytes, &[7, 8], &mut out, &mut scratch), Ok(0));
/// # Ok::<(), mudcanvas::Refusal>(())
/// ```
///
/// # Errors
///
/// In this order: `TooLong` for the index, then for more than [`MAX_STEPS`] values; `CutShort`, `ValueOrder`, `EmptyRun`, `RunOrder` for the index,
/// in reading order; `NoRoom` if `out` or `scratch` has fewer than two words for each run of the index.
pub fn intersect_values(index: &[u8], values: &[u64], out: &mut [u64], scratch: &mut [u64]) -> Result<usize, Refusal> {
    // SAFETY: pointers and lengths are those of slices, and a mutable slice overlaps no other.
    unsafe {
        raw::mudcanvas_raw_intersect_values(
            index.as_ptr(),
            index.len(),
            values.as_ptr(),
            values.len(),
            out.as_mut_ptr(),
            out.len(),
            scratch.as_mut_ptr(),
            scratch.len(),
        )
    }
    .into()
}

/// The length in words that [`intersect_values`] needs of its output and of its scratch, from the number of runs that [`decode`] counts in the index.
///
/// Buffers of this length are never refused with `NoRoom`; a shorter one is always refused.
#[must_use]
pub const fn intersect_values_bound(runs: u64) -> usize {
    two_words_each(runs)
}

/// Two words for each run, or the greatest length where that is more.
const fn two_words_each(runs: u64) -> usize {
    let words = runs.saturating_mul(2);
    if words > usize::MAX as u64 { usize::MAX } else { words as usize }
}

#[cfg(test)]
mod tests {
    use super::*;

    #[test]
    fn parts_outside_the_index_are_empty() {
        let index = [1, 2, 3, 4];
        let part = |at, len| part_of(&index, raw::Part { at, len });
        assert_eq!(part(1, 2), [2, 3]);
        assert_eq!(part(0, 4), index);
        assert_eq!(part(4, 0), []);
        for (at, len) in [(0, 5), (4, 1), (5, 0), (usize::MAX, 0), (usize::MAX, 1), (1, usize::MAX), (usize::MAX, usize::MAX)] {
            assert_eq!(part(at, len), []);
        }
    }
}
