//! A text that is edited, in chunks.

use crate::pieces::Element;
use crate::proved::cuts;
use crate::support::alloc::Global;
use crate::table::{granted, piece};
use crate::{AllocError, Change, Counts, Piece};
use alloc::vec::Vec;
use core::fmt;
use core::iter::FusedIterator;
use core::ops::Range;

/// A text that is edited, of which it is known at any time how many characters, invalid bytes and lines it has.
///
/// The bytes are kept in chunks of some kilobytes. An edit of a few bytes changes one or two of them; no other byte is read or moved. Take a
/// [`PieceTable`](crate::PieceTable) for a short text, if all pieces are wanted as one list.
///
/// ```
/// use noddychest::TextBuffer;
///
/// let mut text = TextBuffer::new(b"caf\xC3\n\xFFtwo\n");
/// assert_eq!((text.counts().line_feeds, text.counts().faults), (2, 2));
/// text.insert(4, b"\xA9");
/// assert_eq!(text.piece(3).and_then(|piece| piece.char()), Some('é'));
/// assert_eq!(text.next_fault(0), Some(6));
/// assert_eq!(text.line_of(6), 1);
/// ```
#[doc(alias = "rope")]
pub struct TextBuffer {
    inner: cuts::TextBuffer<Global>,
}

impl TextBuffer {
    /// A buffer of a copy of the bytes.
    ///
    /// ```
    /// assert_eq!(noddychest::TextBuffer::new(b"a\xFF").len(), 2);
    /// ```
    #[must_use]
    pub fn new(bytes: &[u8]) -> TextBuffer {
        granted(TextBuffer::try_new(bytes))
    }

    /// [`new`](TextBuffer::new), but returns an error if an allocation fails.
    ///
    /// ```
    /// assert!(noddychest::TextBuffer::try_new(b"a\xFF").is_ok());
    /// ```
    pub fn try_new(bytes: &[u8]) -> Result<TextBuffer, AllocError> {
        Ok(TextBuffer { inner: cuts::TextBuffer::of(Global, bytes)? })
    }

    /// How many bytes it has.
    ///
    /// ```
    /// assert_eq!(noddychest::TextBuffer::new("é".as_bytes()).len(), 2);
    /// ```
    #[must_use]
    pub fn len(&self) -> usize {
        self.inner.len()
    }

    /// Whether it has no bytes.
    ///
    /// ```
    /// assert!(noddychest::TextBuffer::default().is_empty());
    /// ```
    #[must_use]
    pub fn is_empty(&self) -> bool {
        self.len() == 0
    }

    /// How many bytes, pieces, invalid bytes and line feeds it has. A piece is a character or one invalid byte.
    ///
    /// ```
    /// let counts = noddychest::TextBuffer::new(b"\xC3\xA9\xFF\n").counts();
    /// assert_eq!((counts.bytes, counts.pieces, counts.faults, counts.line_feeds), (4, 3, 1, 1));
    /// ```
    #[must_use]
    pub fn counts(&self) -> Counts {
        self.inner.counts()
    }

    /// The piece with this number, counted from 0. `None` if there are no more pieces.
    ///
    /// ```
    /// let text = noddychest::TextBuffer::new("é!".as_bytes());
    /// assert_eq!(text.piece(1).map(|piece| (piece.offset, piece.char())), Some((2, Some('!'))));
    /// assert_eq!(text.piece(2), None);
    /// ```
    #[must_use]
    pub fn piece(&self, number: usize) -> Option<Piece> {
        self.inner.piece(number).map(piece)
    }

    /// The piece that has the byte at this offset. `None` if the offset is the length or more.
    ///
    /// ```
    /// let text = noddychest::TextBuffer::new("é!".as_bytes());
    /// assert_eq!(text.piece_at(1).map(|piece| (piece.offset, piece.len)), Some((0, 2)));
    /// ```
    #[must_use]
    pub fn piece_at(&self, offset: usize) -> Option<Piece> {
        self.inner.piece_at(offset).map(piece)
    }

    /// How many pieces begin before this offset: the number of the piece that begins there, if one does.
    ///
    /// ```
    /// assert_eq!(noddychest::TextBuffer::new("é!".as_bytes()).number_of(2), 1);
    /// ```
    #[must_use]
    pub fn number_of(&self, offset: usize) -> usize {
        self.inner.number_of(offset)
    }

    /// The offset of the piece with this number, counted from 0. `None` if there are no more pieces.
    ///
    /// ```
    /// assert_eq!(noddychest::TextBuffer::new("é!".as_bytes()).offset_of(1), Some(2));
    /// ```
    #[must_use]
    pub fn offset_of(&self, number: usize) -> Option<usize> {
        self.inner.offset_of(number)
    }

    /// How many line feeds are before this offset: the number of its line, counted from 0.
    ///
    /// ```
    /// assert_eq!(noddychest::TextBuffer::new(b"a\nb").line_of(2), 1);
    /// ```
    #[must_use]
    pub fn line_of(&self, offset: usize) -> usize {
        self.inner.line_of(offset)
    }

    /// The offset at which the line with this number begins, counted from 0. `None` if there are fewer line feeds than that.
    ///
    /// ```
    /// let text = noddychest::TextBuffer::new(b"a\nb");
    /// assert_eq!((text.offset_of_line(1), text.offset_of_line(2)), (Some(2), None));
    /// ```
    #[must_use]
    pub fn offset_of_line(&self, line: usize) -> Option<usize> {
        self.inner.offset_of_line(line)
    }

    /// The offset of the first invalid byte at this offset or after it. `None` if there is none.
    ///
    /// ```
    /// assert_eq!(noddychest::TextBuffer::new(b"\xFFa\xFE").next_fault(1), Some(2));
    /// ```
    #[must_use]
    pub fn next_fault(&self, offset: usize) -> Option<usize> {
        self.inner.next_fault(offset)
    }

    /// The offset of the last invalid byte before this offset. `None` if there is none.
    ///
    /// ```
    /// assert_eq!(noddychest::TextBuffer::new(b"\xFFa\xFE").previous_fault(2), Some(0));
    /// ```
    #[must_use]
    pub fn previous_fault(&self, offset: usize) -> Option<usize> {
        self.inner.previous_fault(offset)
    }

    /// The bytes of the range, in parts of some kilobytes. What of the range lies past the end is left out.
    ///
    /// ```
    /// let text = noddychest::TextBuffer::new(b"one two");
    /// assert_eq!(text.bytes(4..7).collect::<Vec<_>>().concat(), b"two");
    /// ```
    pub fn bytes(&self, range: Range<usize>) -> BufferBytes<'_> {
        BufferBytes { text: self, range }
    }

    /// The pieces that begin in the range, as [`pieces`](crate::pieces) gives them for all bytes. What of the range lies past the end is left
    /// out.
    ///
    /// ```
    /// let text = noddychest::TextBuffer::new("one é two".as_bytes());
    /// let line: String = text.pieces_in(4..7).filter_map(|piece| piece.char()).collect();
    /// assert_eq!(line, "é ");
    /// assert_eq!(text.pieces_in(5..7).next().map(|piece| piece.offset), Some(6));
    /// assert_eq!(text.pieces_in(0..usize::MAX).next_back().and_then(|piece| piece.char()), Some('o'));
    /// ```
    pub fn pieces_in(&self, range: Range<usize>) -> BufferPieces<'_> {
        let start = match self.piece_at(range.start) {
            Some(over) if over.offset < range.start => over.range().end,
            _ => range.start,
        };
        BufferPieces { text: self, range: start..range.end.min(self.len()), part: self.inner.chunk_at(start) }
    }

    /// A copy of all bytes.
    ///
    /// ```
    /// assert_eq!(noddychest::TextBuffer::new(b"a\xFF").to_vec(), b"a\xFF");
    /// ```
    #[must_use]
    pub fn to_vec(&self) -> Vec<u8> {
        let mut all = Vec::with_capacity(self.len());
        self.bytes(0..self.len()).for_each(|part| all.extend_from_slice(part));
        all
    }

    /// Replaces the bytes of the range. The result says which pieces went and which came: a view repaints only
    /// these.
    ///
    /// # Panics
    ///
    /// If the range ends past the bytes, or before it begins.
    ///
    /// ```
    /// let mut text = noddychest::TextBuffer::new(b"a\xE2\x82b");
    /// let change = text.replace(3..3, b"\xAC");
    /// assert_eq!((change.offset, change.gone.faults, change.come.faults), (0, 2, 0));
    /// assert_eq!(text.piece(1).and_then(|piece| piece.char()), Some('€'));
    /// ```
    pub fn replace(&mut self, range: Range<usize>, with: &[u8]) -> Change {
        granted(self.try_replace(range, with))
    }

    /// [`replace`](TextBuffer::replace), but returns an error if an allocation fails: the text is then as it was.
    ///
    /// # Panics
    ///
    /// If the range ends past the bytes, or before it begins.
    ///
    /// ```
    /// let mut text = noddychest::TextBuffer::new(b"ab");
    /// assert!(text.try_replace(0..1, b"x").is_ok());
    /// assert_eq!(text.to_vec(), b"xb");
    /// ```
    pub fn try_replace(&mut self, range: Range<usize>, with: &[u8]) -> Result<Change, AllocError> {
        self.inner.replace(range.start, range.end, with)
    }

    /// Inserts bytes at the offset. The result is as that of [`replace`](TextBuffer::replace).
    ///
    /// # Panics
    ///
    /// If the offset lies past the bytes.
    ///
    /// ```
    /// let mut text = noddychest::TextBuffer::new(b"ac");
    /// text.insert(1, b"b");
    /// assert_eq!(text.to_vec(), b"abc");
    /// ```
    pub fn insert(&mut self, offset: usize, with: &[u8]) -> Change {
        self.replace(offset..offset, with)
    }

    /// Removes the bytes of the range. The result is as that of [`replace`](TextBuffer::replace).
    ///
    /// # Panics
    ///
    /// If the range ends past the bytes, or before it begins.
    ///
    /// ```
    /// let mut text = noddychest::TextBuffer::new(b"abc");
    /// text.remove(0..2);
    /// assert_eq!(text.to_vec(), b"c");
    /// ```
    pub fn remove(&mut self, range: Range<usize>) -> Change {
        self.replace(range, b"")
    }

    /// Whether each byte is that of a text of as many bytes. (Their chunks may end at other offsets.)
    fn has_bytes_of(&self, other: &TextBuffer) -> bool {
        let mut at = 0;
        while at < self.len() {
            let (one, two) = (self.inner.chunk_at(at), other.inner.chunk_at(at));
            let len = one.len().min(two.len());
            if len == 0 || one[..len] != two[..len] {
                return false;
            }
            at += len;
        }
        true
    }
}

/// A text without bytes.
impl Default for TextBuffer {
    fn default() -> TextBuffer {
        TextBuffer::new(b"")
    }
}

impl Clone for TextBuffer {
    fn clone(&self) -> TextBuffer {
        TextBuffer::new(&self.to_vec())
    }
}

/// Equal if the bytes are equal, whatever was edited.
///
/// ```
/// use noddychest::TextBuffer;
/// let mut text = TextBuffer::new(b"one two");
/// text.remove(3..7);
/// assert_eq!(text, TextBuffer::new(b"one"));
/// ```
impl PartialEq for TextBuffer {
    fn eq(&self, other: &TextBuffer) -> bool {
        self.counts() == other.counts() && self.has_bytes_of(other)
    }
}

impl Eq for TextBuffer {}

/// What it counts, without its bytes: they may be many.
impl fmt::Debug for TextBuffer {
    fn fmt(&self, f: &mut fmt::Formatter<'_>) -> fmt::Result {
        f.debug_struct("TextBuffer").field("counts", &self.counts()).finish_non_exhaustive()
    }
}

/// The bytes of a range of a text, in parts. [`TextBuffer::bytes`] makes it.
///
/// ```
/// let text = noddychest::TextBuffer::new(b"");
/// assert_eq!(text.bytes(0..0).next(), None);
/// ```
#[doc(alias = "chunk")]
#[derive(Clone, Debug)]
#[must_use = "iterators do nothing unless consumed"]
pub struct BufferBytes<'a> {
    text: &'a TextBuffer,
    range: Range<usize>,
}

impl<'a> Iterator for BufferBytes<'a> {
    type Item = &'a [u8];

    fn next(&mut self) -> Option<&'a [u8]> {
        let part = self.text.inner.chunk_at(self.range.start);
        let part = &part[..part.len().min(self.range.len())];
        self.range.start += part.len();
        if part.is_empty() {
            return None;
        }
        Some(part)
    }
}

impl FusedIterator for BufferBytes<'_> {}

/// The pieces of a range of a text. [`TextBuffer::pieces_in`] makes it.
///
/// ```
/// let text = noddychest::TextBuffer::new(b"a\xFFb");
/// assert!(text.pieces_in(1..3).rev().map(|piece| piece.char()).eq([Some('b'), None]));
/// ```
#[derive(Clone, Debug)]
#[must_use = "iterators do nothing unless consumed"]
pub struct BufferPieces<'a> {
    text: &'a TextBuffer,
    /// From where a piece begins, or the text ends.
    range: Range<usize>,
    /// The bytes from the start of the range up to the end of their chunk.
    part: &'a [u8],
}

impl Iterator for BufferPieces<'_> {
    type Item = Piece;

    fn next(&mut self) -> Option<Piece> {
        if self.range.is_empty() {
            return None;
        }
        // Four bytes decide the piece that they begin with.
        let piece = match self.part {
            [_, _, _, _, ..] => u8::first_of(self.part, self.range.start),
            _ => self.text.piece_at(self.range.start),
        }?;
        self.range.start += piece.len;
        self.part = &self.part[piece.len..];
        if self.part.is_empty() {
            self.part = self.text.inner.chunk_at(self.range.start);
        }
        Some(piece)
    }

    /// A piece has at most four bytes.
    fn size_hint(&self) -> (usize, Option<usize>) {
        (self.range.len().div_ceil(4), Some(self.range.len()))
    }
}

impl DoubleEndedIterator for BufferPieces<'_> {
    fn next_back(&mut self) -> Option<Piece> {
        if self.range.is_empty() {
            return None;
        }
        let piece = self.text.piece_at(self.range.end - 1)?;
        self.range.end = piece.offset;
        Some(piece)
    }
}

impl FusedIterator for BufferPieces<'_> {}
