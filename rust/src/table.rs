//! A table of the pieces of bytes that are edited.

use crate::bytes::of_kind;
use crate::proved::cuts;
use crate::proved::encode_unicode::Steps;
use crate::support::alloc::Global;
use crate::{AllocError, Piece};
use alloc::alloc::{handle_alloc_error, Layout};
use core::fmt;
use core::iter::FusedIterator;
use core::ops::Range;

/// Bytes and their pieces, which are kept up to date while the bytes are edited.
///
/// A change reaches few pieces: [`replace`](PieceTable::replace) decodes only those, and moves the others.
///
/// ```
/// use noddychest::PieceTable;
///
/// let mut table = PieceTable::new(b"h\xC3\xA9llo");
/// table.replace(2..3, b"");
/// assert_eq!(table.bytes(), b"h\xC3llo");
/// let faults: Vec<usize> = table.pieces().filter_map(|piece| piece.fault()).map(|fault| fault.offset()).collect();
/// assert_eq!(faults, [1]);
/// ```
pub struct PieceTable {
    inner: cuts::PieceTable<Global>,
}

impl PieceTable {
    /// A table of a copy of the bytes.
    ///
    /// ```
    /// assert_eq!(noddychest::PieceTable::new(b"a\xFF").pieces().len(), 2);
    /// ```
    #[must_use]
    pub fn new(bytes: &[u8]) -> PieceTable {
        granted(PieceTable::try_new(bytes))
    }

    /// [`new`](PieceTable::new), but returns an error if an allocation fails.
    ///
    /// ```
    /// assert!(noddychest::PieceTable::try_new(b"a\xFF").is_ok());
    /// ```
    pub fn try_new(bytes: &[u8]) -> Result<PieceTable, AllocError> {
        Ok(PieceTable { inner: cuts::PieceTable::new(Global, bytes)? })
    }

    /// The bytes.
    ///
    /// ```
    /// assert_eq!(noddychest::PieceTable::new(b"ab").bytes(), b"ab");
    /// ```
    #[must_use]
    pub fn bytes(&self) -> &[u8] {
        self.inner.bytes()
    }

    /// The pieces of the bytes, as [`pieces`](crate::pieces) gives them.
    ///
    /// ```
    /// let table = noddychest::PieceTable::new("é!".as_bytes());
    /// assert!(table.pieces().map(|piece| piece.offset).eq([0, 2]));
    /// ```
    #[must_use = "iterators do nothing unless consumed"]
    pub fn pieces(&self) -> TablePieces<'_> {
        TablePieces { items: self.inner.pieces().iter() }
    }

    /// Replaces the bytes in the range by others, and keeps the pieces up to date.
    ///
    /// # Panics
    ///
    /// If the range ends past the bytes, or before it begins.
    ///
    /// ```
    /// let mut table = noddychest::PieceTable::new(b"a\xE2\x82b");
    /// table.replace(3..3, b"\xAC");
    /// assert!(table.pieces().filter_map(|piece| piece.char()).eq("a€b".chars()));
    /// ```
    pub fn replace(&mut self, range: Range<usize>, with: &[u8]) {
        granted(self.try_replace(range, with));
    }

    /// [`replace`](PieceTable::replace), but returns an error if an allocation fails: the table is then as it was.
    ///
    /// # Panics
    ///
    /// If the range ends past the bytes, or before it begins.
    ///
    /// ```
    /// let mut table = noddychest::PieceTable::new(b"ab");
    /// assert!(table.try_replace(0..1, b"x").is_ok());
    /// assert_eq!(table.bytes(), b"xb");
    /// ```
    pub fn try_replace(&mut self, range: Range<usize>, with: &[u8]) -> Result<(), AllocError> {
        self.inner.replace(range.start, range.end, with, &mut Steps::new())
    }
}

impl Clone for PieceTable {
    fn clone(&self) -> PieceTable {
        PieceTable::new(self.bytes())
    }
}

/// Equal if the bytes are equal, and so the pieces.
///
/// ```
/// use noddychest::PieceTable;
/// let mut table = PieceTable::new(b"a\xC3");
/// table.replace(2..2, b"\xA9");
/// assert_eq!(table, PieceTable::new("aé".as_bytes()));
/// ```
impl PartialEq for PieceTable {
    fn eq(&self, other: &PieceTable) -> bool {
        self.bytes() == other.bytes()
    }
}

impl Eq for PieceTable {}

/// The bytes, and the pieces.
impl fmt::Debug for PieceTable {
    fn fmt(&self, f: &mut fmt::Formatter<'_>) -> fmt::Result {
        f.debug_struct("PieceTable").field("bytes", &self.bytes()).field("pieces", &self.inner.pieces()).finish()
    }
}

/// What memory was granted for; otherwise it ends the process, as std's collections do.
pub(crate) fn granted<T>(result: Result<T, AllocError>) -> T {
    result.unwrap_or_else(|AllocError| handle_alloc_error(Layout::new::<cuts::Item>()))
}

/// The pieces of a table, from both ends. [`PieceTable::pieces`] makes it.
///
/// ```
/// let table = noddychest::PieceTable::new(b"a\xFFb");
/// let mut pieces = table.pieces();
/// assert_eq!(pieces.next_back().and_then(|piece| piece.char()), Some('b'));
/// assert_eq!(pieces.len(), 2);
/// ```
#[derive(Clone, Debug)]
#[must_use = "iterators do nothing unless consumed"]
pub struct TablePieces<'a> {
    items: core::slice::Iter<'a, cuts::Item>,
}

/// The piece of an item of the proved text.
pub(crate) fn piece((offset, result, len): cuts::Item) -> Piece {
    Piece::of(offset, len, of_kind(result))
}

impl Iterator for TablePieces<'_> {
    type Item = Piece;

    fn next(&mut self) -> Option<Piece> {
        self.items.next().copied().map(piece)
    }

    fn size_hint(&self) -> (usize, Option<usize>) {
        self.items.size_hint()
    }
}

impl DoubleEndedIterator for TablePieces<'_> {
    fn next_back(&mut self) -> Option<Piece> {
        self.items.next_back().copied().map(piece)
    }
}

impl ExactSizeIterator for TablePieces<'_> {}
impl FusedIterator for TablePieces<'_> {}
