//! Run lists from rows, ranges and packed bits.
use crate::bitmap::MAX_WORDS;
use crate::{Refusal, least, raw};

/// The maximum number of rows for [`from_rows`], and of ranges for [`from_ranges`].
pub const MAX_ITEMS: usize = 268_435_455;

/// Writes the run list of rows, which may be in any order and may repeat. Returns its number of words.
///
/// The output must have two words for each row. Those after the result, up to that number, are cleared to zero.
///
/// ```
/// use mudcanvas::build;
///
/// let rows = [9, 1, 2, 9];
/// let mut out = vec![7; build::from_rows_bound(rows.len())];
/// let n = build::from_rows(&rows, &mut out)?;
/// assert_eq!(out[..n], [1, 3, 9, 10]);
/// assert_eq!(out[n..], [0, 0, 0, 0]);
/// # Ok::<(), mudcanvas::Refusal>(())
/// ```
///
/// # Errors
///
/// In this order: `TooLong` for more than [`MAX_ITEMS`] rows; `NoRow` if one of them is 2^64 - 1; `NoRoom` if `out` has fewer than two words for each
/// row.
pub fn from_rows(rows: &[u64], out: &mut [u64]) -> Result<usize, Refusal> {
    // SAFETY: pointers and lengths are those of slices, and a mutable slice overlaps no other.
    unsafe { raw::mudcanvas_raw_from_rows(rows.as_ptr(), rows.len(), out.as_mut_ptr(), out.len()) }.into()
}

/// The output length in words that [`from_rows`] needs, from the number of its rows.
///
/// An output of this length is never refused with `NoRoom`; a shorter one is always refused.
#[must_use]
pub const fn from_rows_bound(rows_len: usize) -> usize {
    least(rows_len, MAX_ITEMS).saturating_mul(2)
}

/// Writes the run list of ranges start, end, start, end, which may be in any order. Returns its number of words.
///
/// Empty ranges (end <= start) are dropped; ranges that overlap or touch are joined. The output must have as many words as `ranges`. Those after the
/// result, up to that number, are cleared to zero.
///
/// ```
/// use mudcanvas::build;
///
/// let ranges = [5, 7, 9, 2, 0, 5];
/// let mut out = vec![0; build::from_ranges_bound(ranges.len())];
/// let n = build::from_ranges(&ranges, &mut out)?;
/// assert_eq!(out[..n], [0, 7]);
/// # Ok::<(), mudcanvas::Refusal>(())
/// ```
///
/// # Errors
///
/// In this order: `TooLong` for more than twice [`MAX_ITEMS`] words; `OddWords`; `NoRoom` if `out` has fewer words than `ranges`.
pub fn from_ranges(ranges: &[u64], out: &mut [u64]) -> Result<usize, Refusal> {
    // SAFETY: pointers and lengths are those of slices, and a mutable slice overlaps no other.
    unsafe { raw::mudcanvas_raw_from_ranges(ranges.as_ptr(), ranges.len(), out.as_mut_ptr(), out.len()) }.into()
}

/// The output length in words that [`from_ranges`] needs, from the number of words of its ranges.
///
/// An output of this length is never refused with `NoRoom`; a shorter one is always refused.
#[must_use]
pub const fn from_ranges_bound(ranges_len: usize) -> usize {
    least(ranges_len, MAX_ITEMS.saturating_mul(2))
}

/// Writes the run list of packed bits: row r is bit r mod 8, lowest first, of byte r div 8. Returns its number of words.
///
/// ```
/// use mudcanvas::build;
///
/// let mut out = [0; build::from_packed_bits_bound(1)];
/// let n = build::from_packed_bits(&[0x0D], &mut out)?;
/// assert_eq!(out[..n], [0, 1, 2, 4]);
/// # Ok::<(), mudcanvas::Refusal>(())
/// ```
///
/// # Errors
///
/// In this order: `TooLong` for more than [`bits::MAX_BYTES`](crate::bits::MAX_BYTES) bytes; `NoRoom` if `out` does not have room for the result, or
/// the result has more than [`bitmap::MAX_WORDS`](MAX_WORDS) words.
pub fn from_packed_bits(bits: &[u8], out: &mut [u64]) -> Result<usize, Refusal> {
    // SAFETY: pointers and lengths are those of slices, and a mutable slice overlaps no other.
    unsafe { raw::mudcanvas_raw_from_packed_bits(bits.as_ptr(), bits.len(), out.as_mut_ptr(), out.len()) }.into()
}

/// An output length in words for [`from_packed_bits`], from the number of its bytes.
///
/// An output of this length is never refused with `NoRoom`, except for a result of more than [`bitmap::MAX_WORDS`](MAX_WORDS) words.
#[must_use]
pub const fn from_packed_bits_bound(bits_len: usize) -> usize {
    least(MAX_WORDS, bits_len.saturating_mul(8))
}
