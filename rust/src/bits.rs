//! Rank and select over packed bits, with a directory in a caller-supplied buffer.
//!
//! Bit p is bit p mod 8, lowest first, of byte p div 8. `len` is the number of bits; a `len` above 8 times the number of bytes is reduced to that.
//! Bits at or after `len` are never counted. As in [`rank`](crate::rank), a position itself is not counted.
//!
//! The directory has one word for each 512 bits that are complete within `len`, and one more: word i is the number of set bits before bit 512 i.
//! [`directory`] writes it once; the other calls take it. Each of them compares the whole directory with the bits, so ask for many positions in one
//! call.
use crate::{Refusal, least, raw};

/// The maximum number of bytes of packed bits.
pub const MAX_BYTES: usize = 536_870_911;

/// Writes the directory of packed bits. Returns its number of words: `len` div 512, plus 1.
///
/// ```
/// use mudcanvas::bits;
///
/// let packed = [0xFF; 65];
/// let mut directory = [0; bits::directory_bound(65, 520)];
/// assert_eq!(bits::directory(&packed, 520, &mut directory), Ok(2));
/// assert_eq!(directory, [0, 512]);
/// ```
///
/// # Errors
///
/// In this order: `TooLong` for more than [`MAX_BYTES`] bytes; `NoRoom` if `out` does not have room for the directory.
pub fn directory(bits: &[u8], len: usize, out: &mut [u64]) -> Result<usize, Refusal> {
    // SAFETY: pointers and lengths are those of slices, and a mutable slice overlaps no other.
    unsafe { raw::mudcanvas_raw_bit_directory(bits.as_ptr(), bits.len(), len, out.as_mut_ptr(), out.len()) }.into()
}

/// The output length in words that [`directory`] needs, from the number of bytes and `len`.
///
/// An output of this length is never refused with `NoRoom`; a shorter one is always refused.
#[must_use]
pub const fn directory_bound(bits_len: usize, len: usize) -> usize {
    (least(len, least(bits_len, MAX_BYTES).saturating_mul(8)) / 512).saturating_add(1)
}

/// Writes for each position the number of set bits before it and before `len`. Returns the number of positions.
///
/// ```
/// use mudcanvas::bits;
///
/// let mut out = [0; bits::rank_bound(4)];
/// bits::rank(&[0xFF], 5, &[0], &[0, 3, 5, 6], &mut out)?;
/// assert_eq!(out, [0, 3, 5, 5]);
/// # Ok::<(), mudcanvas::Refusal>(())
/// ```
///
/// # Errors
///
/// In this order: `TooLong` for more than [`MAX_BYTES`] bytes; `OtherDirectory` if `directory` is not the one of the bits and `len`; `NoRoom` if
/// `out` has fewer words than there are positions.
pub fn rank(bits: &[u8], len: usize, directory: &[u64], positions: &[u64], out: &mut [u64]) -> Result<usize, Refusal> {
    // SAFETY: pointers and lengths are those of slices, and a mutable slice overlaps no other.
    unsafe {
        raw::mudcanvas_raw_bit_rank(
            bits.as_ptr(),
            bits.len(),
            len,
            directory.as_ptr(),
            directory.len(),
            positions.as_ptr(),
            positions.len(),
            out.as_mut_ptr(),
            out.len(),
        )
    }
    .into()
}

/// The output length in words that [`rank`] needs, from the number of its positions.
///
/// An output of this length is never refused with `NoRoom`; a shorter one is always refused.
#[must_use]
pub const fn rank_bound(positions_len: usize) -> usize {
    positions_len
}

/// Writes for each pair start, end the number of set bits from the start up to, and without, the end, and before `len`; 0 if end <= start. Returns
/// the number of pairs.
///
/// ```
/// use mudcanvas::bits;
///
/// let mut out = [0; bits::count_range_bound(4)];
/// bits::count_range(&[0xFF], 5, &[0], &[1, 4, 4, 1], &mut out)?;
/// assert_eq!(out, [3, 0]);
/// # Ok::<(), mudcanvas::Refusal>(())
/// ```
///
/// # Errors
///
/// In this order: `TooLong` for more than [`MAX_BYTES`] bytes; `OddWords` for an odd number of words in `pairs`; `OtherDirectory` if `directory` is
/// not the one of the bits and `len`; `NoRoom` if `out` has fewer words than there are pairs.
pub fn count_range(bits: &[u8], len: usize, directory: &[u64], pairs: &[u64], out: &mut [u64]) -> Result<usize, Refusal> {
    // SAFETY: pointers and lengths are those of slices, and a mutable slice overlaps no other.
    unsafe {
        raw::mudcanvas_raw_bit_count_range(
            bits.as_ptr(),
            bits.len(),
            len,
            directory.as_ptr(),
            directory.len(),
            pairs.as_ptr(),
            pairs.len(),
            out.as_mut_ptr(),
            out.len(),
        )
    }
    .into()
}

/// The output length in words that [`count_range`] needs, from the number of words of its pairs.
///
/// An output of this length is never refused with `NoRoom`; a shorter one is always refused.
#[must_use]
pub const fn count_range_bound(pairs_len: usize) -> usize {
    pairs_len / 2
}

/// The number of set bits before `len`.
///
/// ```
/// assert_eq!(mudcanvas::bits::total(&[0xFF], 5, &[0]), Ok(5));
/// ```
///
/// # Errors
///
/// In this order: `TooLong` for more than [`MAX_BYTES`] bytes; `OtherDirectory` if `directory` is not the one of the bits and `len`.
pub fn total(bits: &[u8], len: usize, directory: &[u64]) -> Result<u64, Refusal> {
    // SAFETY: the pointers and the lengths are those of slices.
    unsafe { raw::mudcanvas_raw_bit_total(bits.as_ptr(), bits.len(), len, directory.as_ptr(), directory.len()) }.into()
}

/// Writes for each k the place of the set bit before `len` with exactly k set bits before it, or [`NONE`](crate::NONE): from [`total`] on. Returns the
/// number of words of `ks`.
///
/// ```
/// use mudcanvas::{NONE, bits};
///
/// let mut out = [0; bits::select_bound(5)];
/// bits::select(&[0x0D, 0x80], 16, &[0], &[0, 1, 2, 3, 4], &mut out)?;
/// assert_eq!(out, [0, 2, 3, 15, NONE]);
///
/// // the inverse of `rank`
/// bits::rank(&[0x0D, 0x80], 16, &[0], &[0, 2, 3, 15], &mut out)?;
/// assert_eq!(out[..4], [0, 1, 2, 3]);
/// # Ok::<(), mudcanvas::Refusal>(())
/// ```
///
/// # Errors
///
/// In this order: `TooLong` for more than [`MAX_BYTES`] bytes; `OtherDirectory` if `directory` is not the one of the bits and `len`; `NoRoom` if
/// `out` has fewer words than `ks`.
pub fn select(bits: &[u8], len: usize, directory: &[u64], ks: &[u64], out: &mut [u64]) -> Result<usize, Refusal> {
    // SAFETY: pointers and lengths are those of slices, and a mutable slice overlaps no other.
    unsafe {
        raw::mudcanvas_raw_bit_select(
            bits.as_ptr(),
            bits.len(),
            len,
            directory.as_ptr(),
            directory.len(),
            ks.as_ptr(),
            ks.len(),
            out.as_mut_ptr(),
            out.len(),
        )
    }
    .into()
}

/// The output length in words that [`select`] needs, from the number of words of `ks`.
///
/// An output of this length is never refused with `NoRoom`; a shorter one is always refused.
#[must_use]
pub const fn select_bound(ks_len: usize) -> usize {
    ks_len
}
