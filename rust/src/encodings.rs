//! Bytes in any [`Encoding`]: so UTF-16 in bytes, of either byte order. Offsets count bytes.
//!
//! The pieces are those that a [`Decoder`](crate::Decoder) gives. In UTF-16 a lone surrogate is invalid, and so is a single byte at the end.
//! What is in UTF-8 has these calls without an encoding too: [`crate::char_count`] and the others.

use crate::proved::cuts;
use crate::Encoding;

/// The offset of the first invalid byte, or the length where all is valid.
///
/// ```
/// use noddychest::{encodings, Encoding};
/// assert_eq!(encodings::valid_up_to(Encoding::Utf16Be, b"\0o\0k"), 4);
/// assert_eq!(encodings::valid_up_to(Encoding::Utf16Be, b"\0o\xDE\0\0k"), 2);
/// ```
#[must_use]
pub fn valid_up_to(encoding: Encoding, bytes: &[u8]) -> usize {
    cuts::forms::valid_up_to(encoding.proved(), bytes)
}

/// How many characters there are, with each invalid byte counted as one, and in UTF-16 each lone surrogate.
///
/// ```
/// use noddychest::{encodings, Encoding};
/// assert_eq!(encodings::char_count(Encoding::Utf16Le, b"\x3D\xD8\x00\xDE!\0"), 2);
/// assert_eq!(encodings::char_count(Encoding::Utf16Le, b"\x3D\xD8!\0?"), 3);
/// ```
#[must_use]
pub fn char_count(encoding: Encoding, bytes: &[u8]) -> usize {
    cuts::forms::char_count(encoding.proved(), bytes)
}

/// The offset of the piece with this number, counted from 0. `None` if there are no more pieces.
///
/// ```
/// use noddychest::{encodings, Encoding};
/// let bytes = b"\x3D\xD8\x00\xDE!\0";
/// assert_eq!(encodings::offset_of(Encoding::Utf16Le, bytes, 1), Some(4));
/// assert_eq!(encodings::offset_of(Encoding::Utf16Le, bytes, 2), None);
/// ```
#[must_use]
pub fn offset_of(encoding: Encoding, bytes: &[u8], number: usize) -> Option<usize> {
    cuts::forms::offset_of(encoding.proved(), bytes, number)
}

/// How many pieces begin before this offset. If a piece begins at the offset, this is its number, counted from 0. If the offset is the
/// length or more, all pieces are counted.
///
/// ```
/// use noddychest::{encodings, Encoding};
/// let bytes = b"\x3D\xD8\x00\xDE!\0";
/// assert_eq!(encodings::number_of(Encoding::Utf16Le, bytes, 4), 1);
/// assert_eq!(encodings::number_of(Encoding::Utf16Le, bytes, 99), 2);
/// ```
#[must_use]
pub fn number_of(encoding: Encoding, bytes: &[u8], offset: usize) -> usize {
    cuts::forms::number_of(encoding.proved(), bytes, offset)
}

/// The last boundary between two pieces that is at most `at`. It is at most three bytes before `at`. If `at` is the length or more, it
/// is the length.
///
/// ```
/// use noddychest::{encodings, Encoding};
/// let bytes = b"\x3D\xD8\x00\xDE!\0";
/// assert_eq!(encodings::boundary_before(Encoding::Utf16Le, bytes, 3), 0);
/// assert_eq!(encodings::boundary_before(Encoding::Utf16Le, bytes, 4), 4);
/// ```
#[must_use]
pub fn boundary_before(encoding: Encoding, bytes: &[u8], at: usize) -> usize {
    cuts::boundary_before(encoding.proved(), bytes, at)
}

/// The first boundary between two pieces that is at least `at`, or the length.
///
/// ```
/// use noddychest::{encodings, Encoding};
/// let bytes = b"\x3D\xD8\x00\xDE!\0";
/// assert_eq!(encodings::boundary_after(Encoding::Utf16Le, bytes, 1), 4);
/// assert_eq!(encodings::boundary_after(Encoding::Utf16Le, bytes, 4), 4);
/// ```
#[must_use]
pub fn boundary_after(encoding: Encoding, bytes: &[u8], at: usize) -> usize {
    cuts::boundary_after(encoding.proved(), bytes, at)
}
