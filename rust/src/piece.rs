//! A piece of the split.

use crate::proved::cuts;
use crate::{Fault, FaultKind};
use core::ops::Range;

/// A character, or a single byte or unit that is invalid.
///
/// `O` is what the offset is counted in: a `usize` in a slice, and a `u64` in input that comes in parts, of which more may come than
/// there is memory.
///
/// ```
/// let piece = noddychest::first("é".as_bytes()).unwrap();
/// assert_eq!((piece.offset, piece.len, piece.result), (0, 2, Ok('é')));
/// ```
///
/// Pieces are ordered by offset. More fields may come, so a pattern needs `..`, and [`new`](Piece::new) makes one.
#[derive(Clone, Copy, Debug, PartialEq, Eq, PartialOrd, Ord, Hash)]
#[non_exhaustive]
pub struct Piece<O = usize> {
    /// Where it begins: in bytes, or in units of UTF-16, from the front of what was split, or of all that a decoder was fed.
    pub offset: O,
    /// How many bytes or units it has: 1 to 4 bytes, or 1 or 2 units. What is invalid has one; if UTF-16 is read in bytes it has
    /// two, or one where half a unit ends the text.
    pub len: usize,
    /// The character, or what is wrong.
    pub result: Result<char, Fault<O>>,
}

impl Piece {
    /// A piece of the proved text.
    #[inline(always)]
    pub(crate) fn of<C: Into<char>, K: Into<FaultKind>>(offset: usize, len: usize, result: Result<C, K>) -> Piece {
        let result = match result {
            Ok(c) => Ok(c.into()),
            Err(kind) => Err(Fault::new(offset, 1, kind.into())),
        };
        Piece { offset, len, result }
    }

    /// Its range, to slice with.
    ///
    /// ```
    /// let bytes = b"a\xC3\xA9";
    /// let last = noddychest::last(bytes).unwrap();
    /// assert_eq!(&bytes[last.range()], b"\xC3\xA9");
    /// ```
    #[must_use]
    pub fn range(&self) -> Range<usize> {
        self.offset..self.offset + self.len
    }
}

/// What the proved decoder writes.
impl cuts::FromPiece for Piece<u64> {
    #[inline(always)]
    fn from_character(offset: u64, c: char, len: usize) -> Piece<u64> {
        Piece { offset, len, result: Ok(c) }
    }

    #[cold]
    fn from_fault(offset: u64, kind: cuts::FaultKind, len: usize) -> Piece<u64> {
        Piece { offset, len, result: Err(Fault::new(offset, len as u8, kind.into())) }
    }

    #[inline(always)]
    fn from_ascii(offset: u64, byte: u8) -> Piece<u64> {
        Piece { offset, len: 1, result: Ok(char::from(byte)) }
    }
}

impl Piece<u64> {
    /// Its range in all that was fed.
    ///
    /// ```
    /// use noddychest::{Decoder, Encoding, Piece};
    /// let mut buffer = [Piece::default(); 4];
    /// let did = Decoder::new(Encoding::Utf16Le).feed(b"a\0b\0c", &mut buffer);
    /// assert_eq!((did.written, buffer[1].range()), (2, 2..4));
    /// ```
    #[must_use]
    pub fn range(&self) -> Range<u64> {
        self.offset..self.offset + self.len as u64
    }
}

impl<O> Piece<O> {
    /// A piece at an offset, of `len` bytes or units.
    ///
    /// ```
    /// use noddychest::Piece;
    /// assert_eq!(noddychest::pieces("a€".as_bytes()).nth(1), Some(Piece::new(1, 3, Ok('€'))));
    /// ```
    #[must_use]
    pub const fn new(offset: O, len: usize, result: Result<char, Fault<O>>) -> Piece<O> {
        Piece { offset, len, result }
    }
}

impl<O: Copy> Piece<O> {
    /// The character, or `None` if it is invalid.
    ///
    /// ```
    /// let text: String = noddychest::pieces(b"a\xFFb").map(|piece| piece.char().unwrap_or('\u{FFFD}')).collect();
    /// assert_eq!(text, "a\u{FFFD}b");
    /// ```
    #[must_use]
    pub fn char(&self) -> Option<char> {
        self.result.ok()
    }

    /// What is wrong, or `None` if it is a character.
    ///
    /// ```
    /// let faults = noddychest::pieces(b"a\xFFb\xFE").filter_map(|piece| piece.fault());
    /// assert_eq!(faults.map(|fault| fault.offset()).collect::<Vec<_>>(), [1, 3]);
    /// ```
    #[must_use]
    pub fn fault(&self) -> Option<Fault<O>> {
        self.result.err()
    }
}

/// The character U+0000 at the offset 0, to fill a new buffer.
///
/// ```
/// let buffer = [noddychest::Piece::<u64>::default(); 16];
/// assert_eq!(buffer[0].char(), Some('\0'));
/// ```
impl<O: Default> Default for Piece<O> {
    fn default() -> Piece<O> {
        Piece { offset: O::default(), len: 1, result: Ok('\0') }
    }
}
