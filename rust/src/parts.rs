//! The parts of bytes between separators, from both ends, each with its offset.
//!
//! The bytes may be damaged: a byte below 0x80 is always a character of its own, so no part begins or ends inside of one.
//!
//! ```
//! use noddychest::parts::lines;
//!
//! let log = b"GET /\r\nid=\xFF\n";
//! let found = lines(log).find(|line| std::str::from_utf8(line.as_bytes()).is_err());
//! assert_eq!(found.map(|line| line.start()), Some(7));
//! ```
use core::iter::FusedIterator;

/// Some bytes of a slice, with their offset in it.
///
/// ```
/// let span = noddychest::parts::split_ascii(b"a,bc", b',').last().unwrap();
/// assert_eq!((span.start(), span.end(), span.as_bytes()), (2, 4, &b"bc"[..]));
/// ```
#[doc(inline)]
pub use crate::proved::cuts::Span;

/// The parts between separators. [`split_ascii`] makes it.
///
/// ```
/// let mut parts = noddychest::parts::split_ascii(b"a,b,c", b',');
/// assert_eq!(parts.next_back().map(|it| it.start()), Some(4));
/// assert_eq!(parts.next().map(|it| it.start()), Some(0));
/// ```
#[doc(inline)]
pub use crate::proved::cuts::SplitAscii;

/// The lines. [`lines`] makes it.
///
/// ```
/// assert_eq!(noddychest::parts::lines(b"a\nb\n").count(), 2);
/// ```
#[doc(inline)]
pub use crate::proved::cuts::SplitLines;

/// Splits at each separator, which is an ASCII byte.
///
/// # Panics
///
/// If the separator is 0x80 or more.
///
/// ```
/// let parts: Vec<&[u8]> = noddychest::parts::split_ascii(b"a\xFF;;b", b';').map(|it| it.as_bytes()).collect();
/// assert_eq!(parts, [&b"a\xFF"[..], b"", b"b"]);
/// ```
#[doc(inline)]
pub use crate::proved::cuts::split_ascii;

/// The lines: split at each `\n`, with a `\r` before it taken off. No line comes after a last `\n`.
///
/// ```
/// let lines: Vec<&[u8]> = noddychest::parts::lines(b"a\r\n\nb").map(|it| it.as_bytes()).collect();
/// assert_eq!(lines, [&b"a"[..], b"", b"b"]);
/// ```
#[doc(inline)]
pub use crate::proved::cuts::lines;

impl FusedIterator for SplitAscii<'_> {}
impl FusedIterator for SplitLines<'_> {}

impl Copy for Span<'_> {}

/// Equal where both are the same bytes at the same offset.
///
/// ```
/// use noddychest::parts::lines;
/// assert_eq!(lines(b"a\nb").next(), lines(b"a\r\n").next());
/// assert_ne!(lines(b"a\na").next(), lines(b"a\na").last());
/// ```
impl PartialEq for Span<'_> {
    fn eq(&self, other: &Self) -> bool {
        (self.start(), self.as_bytes()) == (other.start(), other.as_bytes())
    }
}

impl Eq for Span<'_> {}
