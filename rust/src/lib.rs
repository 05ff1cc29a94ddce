//! Row-run bitmaps in caller-supplied buffers: set operations, index bytes, filters, rank and select.
//!
//! These are safe bindings to `libmudcanvas.a`, a library whose functions are proved to meet their contracts for every input. The package is
//! `no_std`, allocates nothing and does not panic.
//!
//! # Run lists
//!
//! A set of rows is a run list: a slice of words start, end, start, end. Each start is below its end and above the previous end, so the words
//! strictly increase. A run contains its start and not its end: `[0, 3]` is the rows 0, 1 and 2. Rows are 0 to 2^64 - 2. Each set of rows has exactly
//! one run list.
//!
//! ```
//! use mudcanvas::{bitmap, build};
//!
//! let rows = [4, 0, 1, 2];
//! let mut dry = vec![0; build::from_rows_bound(rows.len())];
//! let n = build::from_rows(&rows, &mut dry)?;
//! dry.truncate(n);
//! assert_eq!(dry, [0, 3, 4, 5]);
//!
//! let damp = [3, 4];
//! let mut all = vec![0; bitmap::union_bound(dry.len(), damp.len())];
//! let n = bitmap::union(&dry, &damp, &mut all)?;
//! assert_eq!(all[..n], [0, 5]);
//! # Ok::<(), mudcanvas::Refusal>(())
//! ```
//!
//! # Calls
//!
//! - Any contents and any lengths may be given. A call returns its result or a [`Refusal`]; a refused call changes no buffer.
//! - A call that writes takes its output after its inputs, writes the result from the front of it and returns the length of the result. Later
//!   elements keep their contents, except for those that the call is documented to clear.
//! - For each call that writes, a `const fn` whose name ends in `_bound` gives an output length that is long enough. That it is, is proved for each
//!   call (`crates/demands/proofs/BoundLaws.antt` in the repository).
//!
//! # Cost
//!
//! Nothing is kept between calls: each call validates its whole run list or index every time, in one pass.
//!
//! | call | cost |
//! |---|---|
//! | [`bitmap::union`], [`bitmap::intersect`], [`bitmap::difference`] | linear in both lists |
//! | [`bitmap::count`], [`bitmap::encode`], [`bitmap::decode`], [`ranges::contains`], [`ranges::count`] | linear in the list or block |
//! | [`bitmap::contains`], [`bitmap::search`], [`bitmap::neighbours`], [`bitmap::first_overlap`] | one pass over the list, then a binary search |
//! | [`build::from_rows`], [`build::from_ranges`] | O(n log n); linear if the items are sorted, reversed or dense |
//! | [`build::from_packed_bits`] | linear in the bytes |
//! | [`index::decode`], [`index::encode`] | linear in the index |
//! | [`index::bitmap`] | one pass over the index, then a walk over the entry heads |
//! | [`index::insert`] | linear in the index and the runs |
//! | [`index::merge`] | linear in both indexes |
//! | [`index::filter`], [`index::intersect_values`] | one pass over the index, then for each step a walk over the entry heads and one merge |
//! | [`rank::directory`] | linear in the list |
//! | [`rank::rank`], [`rank::select`], [`rank::rank_and_contains`] | one pass over the list, then a binary search for each position |
//! | [`bits::directory`], [`presence::directory`] | linear in the bytes |
//! | [`bits::rank`], [`bits::count_range`], [`bits::total`], [`presence::position`] | one pass over the bytes, then constant time for each position |
//! | [`bits::select`] | one pass over the bytes, then a binary search in the directory for each k |
//! | [`presence::count_set_bits`], [`presence::present_position`] | linear in the bytes before `len` or `row` |
//! | [`bytes`] | constant |
#![no_std]
#![deny(missing_docs)]
#![deny(unsafe_op_in_unsafe_fn)]
#![warn(clippy::missing_errors_doc, clippy::undocumented_unsafe_blocks)]
#![warn(clippy::arithmetic_side_effects, clippy::expect_used, clippy::indexing_slicing, clippy::panic, clippy::unwrap_used)]

use core::fmt;

pub mod bitmap;
pub mod bits;
pub mod build;
pub mod bytes;
pub mod index;
pub mod presence;
pub mod ranges;
pub mod rank;
pub mod raw;

/// The example of the package's README.md, compiled and run as a documentation test.
#[cfg(doctest)]
#[doc = include_str!("../README.md")]
struct Readme;

/// What [`rank::select`], [`bits::select`] and [`presence::position`] write where there is no result; it is never a row, nor a place of a bit.
pub const NONE: u64 = u64::MAX;

/// Converts a word written by [`rank::select`], [`bits::select`] or [`presence::position`] to an option: [`NONE`] to `None`.
///
/// ```
/// assert_eq!(mudcanvas::some(7), Some(7));
/// assert_eq!(mudcanvas::some(mudcanvas::NONE), None);
/// ```
#[must_use]
pub const fn some(word: u64) -> Option<u64> {
    if word == NONE { None } else { Some(word) }
}

/// Defines [`Refusal`] and its translations from one list: the number, the variant and the message of each known refusal.
macro_rules! refusals {
    ($($(#[$doc:meta])* $number:literal => $name:ident, $message:literal;)+) => {
        /// Why a call was refused. A refused call changes no buffer.
        ///
        /// If several refusals apply, the call returns the first of them: `TooLong` for each argument in turn, then the other faults of each argument
        /// in turn, from front to back, then `OtherDirectory`, then `MissingValue`, then `NoRoom`. The `Errors` section of each call lists them in this order.
        ///
        /// ```
        /// use mudcanvas::{Refusal, bitmap};
        ///
        /// let refusal = bitmap::count(&[2, 4, 4, 8]).unwrap_err();
        /// assert_eq!(refusal, Refusal::RunOrder);
        /// assert_eq!(refusal.number(), 4);
        /// assert_eq!(Refusal::try_from(4), Ok(Refusal::RunOrder));
        /// assert_eq!(refusal.to_string(), "a run's start is not above the previous end");
        /// ```
        #[derive(Clone, Copy, Debug, PartialEq, Eq, Hash, PartialOrd, Ord)]
        #[non_exhaustive]
        pub enum Refusal {
            $($(#[$doc])* $name,)+
            /// A refusal that this version of the package does not know; a later library may give it.
            ///
            /// It holds the number of the refusal. No call returns it for a number that has a variant of its own.
            Other(u64),
        }

        impl Refusal {
            /// The number of this refusal in the library: 1 to 11 for the named variants.
            #[must_use]
            pub const fn number(self) -> u64 {
                match self {
                    $(Refusal::$name => $number,)+
                    Refusal::Other(number) => number,
                }
            }

            /// The variant for a number, if there is one.
            const fn known(number: u64) -> Option<Refusal> {
                match number {
                    $($number => Some(Refusal::$name),)+
                    _ => None,
                }
            }
        }

        impl fmt::Display for Refusal {
            fn fmt(&self, f: &mut fmt::Formatter<'_>) -> fmt::Result {
                match self {
                    $(Refusal::$name => f.write_str($message),)+
                    Refusal::Other(number) => write!(f, "a refusal that this version does not know, with number {number}"),
                }
            }
        }
    };
}

refusals! {
    /// A length is above its limit.
    1 => TooLong, "a length is above its limit";
    /// The bytes end inside a field or block.
    2 => CutShort, "bytes end inside a field or block";
    /// A run's end is not above its start.
    3 => EmptyRun, "a run's end is not above its start";
    /// A run's start is not above the previous end.
    4 => RunOrder, "a run's start is not above the previous end";
    /// An index value is not above the previous value.
    5 => ValueOrder, "an index value is not above the previous";
    /// An odd number of words where pairs are expected.
    6 => OddWords, "an odd number of words where pairs are due";
    /// Row 2^64 - 1 was given to [`build::from_rows`].
    7 => NoRow, "2^64 - 1 is not a row";
    /// A step kind is outside 1 to 4.
    8 => StepKind, "a step kind is outside 1 to 4";
    /// The directory is not the one of its data.
    9 => OtherDirectory, "the directory is not the one of its data";
    /// An output or scratch buffer does not have room, or the result is longer than its limit.
    10 => NoRoom, "an output is shorter than needed, or a result is past its length limit";
    /// A step of [`index::filter`] names a value that the index has no entry for.
    11 => MissingValue, "a step names a value that the index lacks";
}

impl core::error::Error for Refusal {}

/// A number that is not the number of a known refusal; 0 is none either, since it stands for an accepted call.
///
/// ```
/// use mudcanvas::{Refusal, UnknownRefusal};
///
/// assert_eq!(Refusal::try_from(0), Err(UnknownRefusal(0)));
/// ```
#[derive(Clone, Copy, Debug, PartialEq, Eq, Hash, PartialOrd, Ord)]
pub struct UnknownRefusal(
    /// The number.
    pub u64,
);

impl fmt::Display for UnknownRefusal {
    fn fmt(&self, f: &mut fmt::Formatter<'_>) -> fmt::Result {
        write!(f, "{} is not the number of a known refusal", self.0)
    }
}

impl core::error::Error for UnknownRefusal {}

impl TryFrom<u64> for Refusal {
    type Error = UnknownRefusal;

    fn try_from(number: u64) -> Result<Refusal, UnknownRefusal> {
        Refusal::known(number).ok_or(UnknownRefusal(number))
    }
}

/// The result of a call that returned this value and this number: 0 if it was accepted, else its refusal.
fn accepted<T>(number: u64, value: T) -> Result<T, Refusal> {
    match number {
        0 => Ok(value),
        _ => Err(Refusal::known(number).unwrap_or(Refusal::Other(number))),
    }
}

impl From<raw::Answer> for Result<usize, Refusal> {
    fn from(answer: raw::Answer) -> Self {
        accepted(answer.refusal, answer.len)
    }
}

impl From<raw::Number> for Result<u64, Refusal> {
    fn from(answer: raw::Number) -> Self {
        accepted(answer.refusal, answer.number)
    }
}

/// The lesser of two lengths; `Ord::min` is not a `const fn`.
const fn least(a: usize, b: usize) -> usize {
    if a < b { a } else { b }
}

#[cfg(test)]
mod tests {
    use super::*;

    #[test]
    fn every_number_has_a_result() {
        assert_eq!(accepted(0, 7), Ok(7));
        for number in 1..=11 {
            assert_eq!(accepted(number, 7).err(), Refusal::known(number));
            assert_eq!(accepted(number, 7).map_err(Refusal::number), Err(number));
        }
        for number in [12, 255, 256, 1 << 32, u64::MAX] {
            assert_eq!(accepted(number, 7), Err(Refusal::Other(number)));
            assert_eq!(Refusal::known(number), None);
            assert_eq!(Refusal::Other(number).number(), number);
        }
    }

    #[test]
    fn answers() {
        let words = |refusal, len| Result::<usize, Refusal>::from(raw::Answer { refusal, len });
        assert_eq!(words(0, 3), Ok(3));
        assert_eq!(words(10, 0), Err(Refusal::NoRoom));
        assert_eq!(words(11, 3), Err(Refusal::MissingValue));
        assert_eq!(words(12, 3), Err(Refusal::Other(12)));
        let number = |refusal, number| Result::<u64, Refusal>::from(raw::Number { refusal, number });
        assert_eq!(number(0, 3), Ok(3));
        assert_eq!(number(1, 0), Err(Refusal::TooLong));
        assert_eq!(number(u64::MAX, 3), Err(Refusal::Other(u64::MAX)));
    }
}
