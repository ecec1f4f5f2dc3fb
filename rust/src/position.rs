//! Lines and columns: of input in parts, and of each invalid byte.

use core::iter::FusedIterator;

use crate::proved::cuts;
use crate::{Encoding, Fault, Faults};

/// A position in input that comes in parts: the line, the column in characters and the column in bytes, each from 1 on.
///
/// A line ends after its line feed, and after nothing else. A column counts characters, and each invalid byte as one; in UTF-16 each lone
/// surrogate. The position depends on all bytes that were passed, and not on how they are divided into parts: it is the one that these bytes
/// have if they are the whole input. So after the first two bytes of `E2 82 AC`, which are invalid until the third follows, the column is 3,
/// and after all three it is 2. It holds at most three bytes, allocates nothing, and may be cloned.
///
/// ```
/// use noddychest::{Encoding, Position};
///
/// let mut at = Position::new(Encoding::Utf8);
/// at.advance(b"caf\xC3");
/// at.advance(b"\xA9\nau ");
/// assert_eq!((at.line(), at.column(), at.byte_column()), (2, 4, 4));
/// at.advance("naïve".as_bytes());
/// assert_eq!((at.line(), at.column(), at.byte_column()), (2, 9, 10));
/// ```
#[derive(Clone, Debug)]
pub struct Position {
    encoding: Encoding,
    inner: cuts::Position,
}

impl Position {
    /// The position at the front of input of that encoding: line 1, column 1.
    ///
    /// ```
    /// use noddychest::{Encoding, Position};
    /// let at = Position::new(Encoding::Utf8);
    /// assert_eq!((at.line(), at.column(), at.byte_column()), (1, 1, 1));
    /// ```
    #[must_use]
    pub fn new(encoding: Encoding) -> Position {
        Position { encoding, inner: cuts::Position::new() }
    }

    /// Advances over the next bytes of the input, which may begin and end anywhere. Line feeds are counted with SIMD, and characters only
    /// after the last of them.
    ///
    /// ```
    /// use noddychest::{Encoding, Position};
    /// let mut at = Position::new(Encoding::Utf16Be);
    /// at.advance(b"\0\n\xD8\x3D\xDE");
    /// at.advance(b"\0");
    /// assert_eq!((at.line(), at.column(), at.byte_column()), (2, 2, 5));
    /// ```
    pub fn advance(&mut self, bytes: &[u8]) {
        self.inner.advance(self.encoding.proved(), bytes);
    }

    /// The line, from 1 on.
    ///
    /// ```
    /// let (at, _) = noddychest::positions(b"a\nb\n\xFF").next().unwrap();
    /// assert_eq!(at.line(), 3);
    /// ```
    #[must_use]
    pub fn line(&self) -> u64 {
        self.inner.line()
    }

    /// The column in characters and invalid bytes, from 1 on.
    ///
    /// ```
    /// let (at, _) = noddychest::positions(b"caf\xC3\xA9\xFF").next().unwrap();
    /// assert_eq!(at.column(), 5);
    /// ```
    #[must_use]
    pub fn column(&self) -> u64 {
        self.inner.column()
    }

    /// The column in bytes, from 1 on.
    ///
    /// ```
    /// let (at, _) = noddychest::positions(b"caf\xC3\xA9\xFF").next().unwrap();
    /// assert_eq!(at.byte_column(), 6);
    /// ```
    #[must_use]
    pub fn byte_column(&self) -> u64 {
        self.inner.byte_column()
    }
}

/// The invalid bytes of UTF-8, each with its position: what [`positions`] makes.
///
/// ```
/// let mut positions = noddychest::positions(b"a\xFF");
/// assert!(positions.next().is_some() && positions.next().is_none());
/// ```
#[derive(Clone, Debug)]
#[must_use = "iterators do nothing unless consumed"]
pub struct Positions<'a> {
    bytes: &'a [u8],
    faults: Faults<'a>,
    passed: usize,
    at: Position,
}

impl Iterator for Positions<'_> {
    type Item = (Position, Fault);

    fn next(&mut self) -> Option<(Position, Fault)> {
        let fault = self.faults.next()?;
        self.at.advance(&self.bytes[self.passed..fault.offset()]);
        self.passed = fault.offset();
        Some((self.at.clone(), fault))
    }

    fn size_hint(&self) -> (usize, Option<usize>) {
        self.faults.size_hint()
    }
}

impl FusedIterator for Positions<'_> {}

/// The invalid bytes that [`faults`](crate::faults) gives, each with its position.
///
/// For input in parts, or UTF-16, pass to a [`Position`] what lies before each fault that a [`Decoder`](crate::Decoder) gives.
///
/// ```
/// let text = b"caf\xC3\xA9 \xE2\x82 au lait\nsecond \xFF line\n";
/// let found: Vec<_> = noddychest::positions(text).map(|(at, fault)| (at.line(), at.column(), fault.offset())).collect();
/// assert_eq!(found, [(1, 6, 6), (1, 7, 7), (2, 8, 24)]);
/// ```
#[doc(alias = "line")]
#[doc(alias = "column")]
pub fn positions(bytes: &[u8]) -> Positions<'_> {
    Positions { bytes, faults: crate::faults(bytes), passed: 0, at: Position::new(Encoding::Utf8) }
}
