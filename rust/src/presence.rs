//! Presence over packed bits: the position of a set row is the number of set rows before it.
//!
//! Row r is bit r mod 8, lowest first, of byte r div 8.
//!
//! The directory has one 32-bit entry for each 64 bits, the last of them perhaps incomplete: the number of set bits before them. [`directory`] writes
//! it once; [`position`] takes it and compares all of it with the bits, so ask for many rows in one call.
use crate::bits::MAX_BYTES;
use crate::{Refusal, least, raw, some};

/// The number of set bits before `len`, and before the end of the bytes.
///
/// ```
/// assert_eq!(mudcanvas::presence::count_set_bits(&[0xFF], 5), Ok(5));
/// ```
///
/// # Errors
///
/// `TooLong` for more than [`bits::MAX_BYTES`](MAX_BYTES) bytes.
pub fn count_set_bits(bits: &[u8], len: usize) -> Result<u64, Refusal> {
    // SAFETY: the pointer and the length are those of a slice.
    unsafe { raw::mudcanvas_raw_count_set_bits(bits.as_ptr(), bits.len(), len) }.into()
}

/// The number of set bits before a set row; `None` if the row is clear or after the end of the bytes.
///
/// It counts from the first byte on. For many rows use [`position`].
///
/// ```
/// use mudcanvas::presence::present_position;
///
/// assert_eq!(present_position(&[0x0D], 3), Ok(Some(2)));
/// assert_eq!(present_position(&[0x0D], 1), Ok(None));
/// ```
///
/// # Errors
///
/// `TooLong` for more than [`bits::MAX_BYTES`](MAX_BYTES) bytes.
pub fn present_position(bits: &[u8], row: usize) -> Result<Option<u64>, Refusal> {
    // SAFETY: the pointer and the length are those of a slice.
    let answer: Result<u64, Refusal> = unsafe { raw::mudcanvas_raw_present_position(bits.as_ptr(), bits.len(), row) }.into();
    answer.map(some)
}

/// Writes the directory of packed bits. Returns its number of entries.
///
/// ```
/// use mudcanvas::presence;
///
/// let mut directory = [9; presence::directory_bound(9)];
/// assert_eq!(presence::directory(&[1; 9], &mut directory), Ok(2));
/// assert_eq!(directory, [0, 8]);
/// ```
///
/// # Errors
///
/// In this order: `TooLong` for more than [`bits::MAX_BYTES`](MAX_BYTES) bytes; `NoRoom` if `out` does not have room for the directory.
pub fn directory(bits: &[u8], out: &mut [u32]) -> Result<usize, Refusal> {
    // SAFETY: pointers and lengths are those of slices, and a mutable slice overlaps no other.
    unsafe { raw::mudcanvas_raw_presence_directory(bits.as_ptr(), bits.len(), out.as_mut_ptr(), out.len()) }.into()
}

/// The output length in 32-bit entries that [`directory`] needs, from the number of bytes.
///
/// An output of this length is never refused with `NoRoom`; a shorter one is always refused.
#[must_use]
pub const fn directory_bound(bits_len: usize) -> usize {
    least(bits_len, MAX_BYTES).div_ceil(8)
}

/// Writes for each row the number of set bits before it if it is set, else [`NONE`](crate::NONE). Returns the number of rows.
///
/// ```
/// use mudcanvas::{presence, some};
///
/// let mut out = [0; presence::position_bound(5)];
/// presence::position(&[0x0D], &[0], &[0, 1, 2, 3, 8], &mut out)?;
/// assert_eq!(out.map(some), [Some(0), None, Some(1), Some(2), None]);
/// # Ok::<(), mudcanvas::Refusal>(())
/// ```
///
/// # Errors
///
/// In this order: `TooLong` for more than [`bits::MAX_BYTES`](MAX_BYTES) bytes; `OtherDirectory` if `directory` is not the one of the bits; `NoRoom`
/// if `out` has fewer words than there are rows.
pub fn position(bits: &[u8], directory: &[u32], rows: &[u64], out: &mut [u64]) -> Result<usize, Refusal> {
    // SAFETY: pointers and lengths are those of slices, and a mutable slice overlaps no other.
    unsafe {
        raw::mudcanvas_raw_position(
            bits.as_ptr(),
            bits.len(),
            directory.as_ptr(),
            directory.len(),
            rows.as_ptr(),
            rows.len(),
            out.as_mut_ptr(),
            out.len(),
        )
    }
    .into()
}

/// The output length in words that [`position`] needs, from the number of its rows.
///
/// An output of this length is never refused with `NoRoom`; a shorter one is always refused.
#[must_use]
pub const fn position_bound(rows_len: usize) -> usize {
    rows_len
}
