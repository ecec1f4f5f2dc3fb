//! The pieces of a slice, and only the invalid ones: with the same types for bytes and for units.

use crate::proved::cuts;
use crate::{Fault, FaultKind, Piece};
use core::fmt;
use core::iter::FusedIterator;
use core::ops::Range;

/// What text is kept in: a byte of UTF-8, or a unit of UTF-16.
pub trait Element: Copy {
    /// How many of them a piece has at most.
    const MOST: usize;

    /// The piece at the front of what is left from that offset on.
    fn first_of(left: &[Self], offset: usize) -> Option<Piece>;

    /// The piece at its end.
    fn last_of(left: &[Self], offset: usize) -> Option<Piece>;

    /// How many of them are text, up to the first that is invalid.
    fn valid_up_to(left: &[Self]) -> usize;

    /// The last boundary between two pieces that is at most `at`.
    fn boundary_before(left: &[Self], at: usize) -> usize;

    /// Writes the faults of what begins at that offset to the front of an array, until it is full.
    fn faults_into(left: &[Self], offset: usize, found: &mut [Found]) -> cuts::Fed;
}

/// The pieces of some bytes, or of some units, from the front and from the end. [`pieces`](crate::pieces) and
/// [`units::pieces`](crate::units::pieces) make it.
///
/// The kind of a fault depends on what is left: taken from both ends, each piece comes once, with the offset and the length that it
/// has from the front.
///
/// ```
/// let mut pieces = noddychest::pieces("a€b".as_bytes());
/// assert_eq!(pieces.next_back().and_then(|piece| piece.char()), Some('b'));
/// assert_eq!(pieces.next().and_then(|piece| piece.char()), Some('a'));
/// assert_eq!(pieces.as_slice(), "€".as_bytes());
/// assert_eq!(pieces.size_hint(), (1, Some(3)));
/// ```
#[derive(Clone, Debug)]
#[must_use = "iterators do nothing unless consumed"]
pub struct Pieces<'a, T = u8> {
    left: &'a [T],
    offset: usize,
}

impl<'a, T: Element> Pieces<'a, T> {
    /// The bytes, or the units, that no piece was given of yet.
    ///
    /// ```
    /// let mut pieces = noddychest::pieces(b"key=value");
    /// pieces.find(|piece| piece.result == Ok('='));
    /// assert_eq!(pieces.as_slice(), b"value");
    /// ```
    #[must_use]
    pub fn as_slice(&self) -> &'a [T] {
        self.left
    }

    /// The offset of what is left, in bytes or units.
    ///
    /// ```
    /// let mut pieces = noddychest::pieces("éa".as_bytes());
    /// pieces.next();
    /// assert_eq!(pieces.offset(), 2);
    ///
    /// let mut pieces = noddychest::units::pieces(&[0xD83D, 0xDE00, 0x41]);
    /// pieces.next();
    /// assert_eq!((pieces.offset(), pieces.as_slice()), (2, &[0x41][..]));
    /// ```
    #[must_use]
    pub fn offset(&self) -> usize {
        self.offset
    }

    /// Skips that many at the front.
    #[inline(always)]
    fn pass(&mut self, len: usize) {
        self.left = &self.left[len..];
        self.offset += len;
    }
}

impl<'a, T: Element> From<&'a [T]> for Pieces<'a, T> {
    fn from(all: &'a [T]) -> Pieces<'a, T> {
        Pieces { left: all, offset: 0 }
    }
}

impl<T: Element> Iterator for Pieces<'_, T> {
    type Item = Piece;

    // (called, it would hand each piece on in memory)
    #[inline(always)]
    fn next(&mut self) -> Option<Piece> {
        let piece = T::first_of(self.left, self.offset)?;
        self.pass(piece.len);
        Some(piece)
    }

    /// A piece has at most four bytes, or two units.
    fn size_hint(&self) -> (usize, Option<usize>) {
        (self.left.len().div_ceil(T::MOST), Some(self.left.len()))
    }
}

impl<T: Element> DoubleEndedIterator for Pieces<'_, T> {
    #[inline]
    fn next_back(&mut self) -> Option<Piece> {
        let piece = T::last_of(self.left, self.offset)?;
        self.left = &self.left[..self.left.len() - piece.len];
        Some(piece)
    }
}

impl<T: Element> FusedIterator for Pieces<'_, T> {}

/// How many faults are found at once, and how many bytes or units are looked at after the first of them: the more, the more faults were there.
const AHEAD: usize = 128;
const NEAR: usize = 128;
const FAR: usize = 4096;

/// A fault that was found ahead. Blocks are short, so the low bits of its offset tell it.
#[derive(Clone, Copy, Debug)]
pub struct Found {
    offset: u16,
    len: u8,
    kind: FaultKind,
}

impl Found {
    /// What fills the place of one that was not found yet.
    const NOTHING: Found = Found { offset: 0, len: 1, kind: FaultKind::Incomplete };

    /// The fault in all, if it was looked for from that offset on.
    #[inline(always)]
    fn from(self, begin: usize) -> Fault {
        Fault::new(begin + usize::from(self.offset.wrapping_sub(begin as u16)), self.len, self.kind)
    }
}

/// What a search for faults writes: it meets no character.
impl cuts::FromPiece for Found {
    fn from_character(_: u64, _: char, _: usize) -> Found {
        unreachable!("a search for faults writes no character")
    }

    #[inline(always)]
    fn from_fault(offset: u64, kind: cuts::FaultKind, len: usize) -> Found {
        Found { offset: offset as u16, len: len as u8, kind: kind.into() }
    }

    fn from_ascii(_: u64, _: u8) -> Found {
        unreachable!("a search for faults writes no character")
    }
}

/// How many bytes or units are validated in one block from the end: the more, the more of them were text. What is in a short block that is no
/// text is looked at piece by piece.
const SHORT: usize = 64;
const LONG: usize = 4096;

/// The invalid bytes of some bytes, or the invalid units of some units, from the front and from the end.
/// [`faults`](crate::faults) and [`units::faults`](crate::units::faults) make it.
///
/// Asked from both ends, each fault comes once, and is what it is from the front: [`Pieces`] judges by what is left, and this by all.
///
/// ```
/// let mut faults = noddychest::faults(b"caf\xE9 noir\xFF");
/// assert_eq!(faults.next_back().unwrap().offset(), 9);
/// assert_eq!(faults.next().unwrap().to_string(), "invalid UTF-8 at offset 3: InterruptedSequence");
/// assert_eq!(faults.as_slice(), b" noir");
/// assert_eq!(faults.next(), None);
/// ```
#[derive(Clone)]
#[must_use = "iterators do nothing unless consumed"]
pub struct Faults<'a, T = u8> {
    /// All that was given: what follows a fault says why it is one.
    all: &'a [T],
    /// The part of which no fault was given yet.
    left: Range<usize>,
    /// From the front: `found[next..count]` were found and not given. They are all from `begin` up to `seen`, which is in a block that ends
    /// at `until`; and how long the next block is.
    found: [Found; AHEAD],
    next: usize,
    count: usize,
    begin: usize,
    seen: usize,
    until: usize,
    reach: usize,
    /// From the back: how many are validated next, and text that was validated. Between that and the end of what is left, pieces are looked at
    /// one by one.
    block: usize,
    text: Range<usize>,
}

impl<'a, T: Element> Faults<'a, T> {
    /// The bytes, or the units, of which no fault was given yet: those between the last one from the front and the last one from the end.
    ///
    /// ```
    /// let mut faults = noddychest::faults(b"a\xFFb");
    /// faults.next();
    /// assert_eq!(faults.as_slice(), b"b");
    /// ```
    #[must_use]
    pub fn as_slice(&self) -> &'a [T] {
        &self.all[self.left.clone()]
    }

    /// The offset of what [`as_slice`](Faults::as_slice) gives, in bytes or units.
    ///
    /// ```
    /// let mut faults = noddychest::faults(b"a\xFFb");
    /// faults.next();
    /// assert_eq!(faults.offset(), 2);
    ///
    /// let mut faults = noddychest::units::faults(&[0xDE00, 0x41]);
    /// faults.next();
    /// assert_eq!((faults.offset(), faults.as_slice()), (1, &[0x41][..]));
    /// ```
    #[must_use]
    pub fn offset(&self) -> usize {
        self.left.start
    }

    /// Finds the next faults. Returns false if none is left.
    #[inline(never)]
    fn look_ahead(&mut self) -> bool {
        let end = self.left.end;
        (self.next, self.count) = (0, 0);
        if self.seen >= self.until && self.seen < end {
            self.seen += T::valid_up_to(&self.all[self.seen..end]);
            self.until = if end - self.seen <= self.reach { end } else { T::boundary_before(self.all, self.seen + self.reach) };
        }
        if self.seen < end {
            let did = T::faults_into(&self.all[self.seen..self.until], self.seen, &mut self.found);
            (self.begin, self.seen, self.count) = (self.seen, self.seen + did.read, did.written);
            self.reach = if did.written > 1 { FAR.min(2 * self.reach) } else { NEAR.max(self.reach / 2) };
            self.judge_last();
            self.drop_given();
        }
        if self.count == 0 {
            self.left.start = end;
        }
        self.count > 0
    }

    /// Judges faults near the end of a block by all that follows.
    fn judge_last(&mut self) {
        for found in self.found[..self.count].iter_mut().rev() {
            let offset = found.from(self.begin).offset();
            if offset + T::MOST <= self.until {
                break;
            }
            if let Some(fault) = fault_at(self.all, offset) {
                found.kind = fault.kind();
            }
        }
    }

    /// Drops those that were given from the back.
    fn drop_given(&mut self) {
        while self.count > self.next && self.found[self.count - 1].from(self.begin).offset() >= self.left.end {
            self.count -= 1;
        }
    }

    /// Validates a block at the end of what is left: one that is text, or a short one.
    fn validate_last(&mut self) {
        let left = self.as_slice();
        loop {
            let begin = T::boundary_before(left, left.len().saturating_sub(self.block));
            let end = begin + T::valid_up_to(&left[begin..]);
            if end == left.len() {
                self.block = LONG.min(2 * self.block);
            } else if self.block > SHORT {
                self.block = SHORT.max(self.block / 4);
                continue;
            }
            self.text = self.left.start + begin..self.left.start + end;
            return;
        }
    }

    /// Passes the text that was validated, at the end of what is left.
    fn pass_text(&mut self) {
        self.left.end = self.text.start.max(self.left.start);
    }
}

impl<'a, T: Element> From<&'a [T]> for Faults<'a, T> {
    fn from(all: &'a [T]) -> Faults<'a, T> {
        let (found, left, text) = ([Found::NOTHING; AHEAD], 0..all.len(), all.len()..all.len());
        Faults { all, left, found, next: 0, count: 0, begin: 0, seen: 0, until: 0, reach: NEAR, block: SHORT, text }
    }
}

impl<T: Element> Iterator for Faults<'_, T> {
    type Item = Fault;

    #[inline]
    fn next(&mut self) -> Option<Fault> {
        if self.next == self.count && !self.look_ahead() {
            return None;
        }
        let fault = self.found[self.next].from(self.begin);
        self.next += 1;
        self.left.start = fault.range().end;
        Some(fault)
    }

    fn size_hint(&self) -> (usize, Option<usize>) {
        (0, Some(self.left.len()))
    }
}

impl<T: Element> DoubleEndedIterator for Faults<'_, T> {
    fn next_back(&mut self) -> Option<Fault> {
        while !self.left.is_empty() {
            if self.left.end > self.text.end {
                let piece = T::last_of(self.as_slice(), self.left.start)?;
                self.left.end -= piece.len;
                if piece.result.is_err() {
                    self.drop_given();
                    return fault_at(self.all, piece.offset);
                }
            } else {
                self.pass_text();
                self.validate_last();
            }
        }
        None
    }
}

impl<T: Element> FusedIterator for Faults<'_, T> {}

impl<T: Element + fmt::Debug> fmt::Debug for Faults<'_, T> {
    fn fmt(&self, f: &mut fmt::Formatter<'_>) -> fmt::Result {
        f.debug_struct("Faults").field("left", &self.as_slice()).field("offset", &self.offset()).finish()
    }
}

/// The fault at an offset, as it is from the front. (Called with the iterator, it would have that kept in memory.)
#[inline(never)]
fn fault_at<T: Element>(all: &[T], offset: usize) -> Option<Fault> {
    T::first_of(&all[offset..], offset)?.fault()
}
