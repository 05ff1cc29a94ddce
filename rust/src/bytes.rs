//! Little-endian numbers in bytes. Bytes past the end count as 0, so no call here is refused.
use crate::raw;

/// The 32-bit number in the four bytes from an offset on.
///
/// ```
/// assert_eq!(mudcanvas::bytes::u32_at(&[1, 2, 3, 4, 5], 1), 0x05040302);
/// assert_eq!(mudcanvas::bytes::u32_at(&[1, 2, 3, 4, 5], 4), 5);
/// ```
#[must_use]
pub fn u32_at(bytes: &[u8], at: usize) -> u32 {
    // SAFETY: the pointer and the length are those of a slice.
    unsafe { raw::mudcanvas_raw_u32_at(bytes.as_ptr(), bytes.len(), at) }
}

/// The 64-bit number in the eight bytes from an offset on.
///
/// ```
/// assert_eq!(mudcanvas::bytes::u64_at(&[0, 1, 2, 0, 0, 0, 0, 0, 0], 1), 0x0201);
/// ```
#[must_use]
pub fn u64_at(bytes: &[u8], at: usize) -> u64 {
    // SAFETY: the pointer and the length are those of a slice.
    unsafe { raw::mudcanvas_raw_u64_at(bytes.as_ptr(), bytes.len(), at) }
}

/// The 64-bit number in the first eight bytes.
///
/// ```
/// assert_eq!(mudcanvas::bytes::load_word(&[1, 2]), 0x0201);
/// ```
#[must_use]
pub fn load_word(bytes: &[u8]) -> u64 {
    // SAFETY: the pointer and the length are those of a slice.
    unsafe { raw::mudcanvas_raw_load_word(bytes.as_ptr(), bytes.len()) }
}
