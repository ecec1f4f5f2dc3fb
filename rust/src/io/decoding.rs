//! The pieces of what a reader gives.

use crate::{Decoder, Encoding, Fault, Piece, Progress};
use std::fmt;
use std::io::{BufRead, ErrorKind, Result};
use std::iter::FusedIterator;

/// How many pieces are decoded by one call.
const ROOM: usize = 64;

/// What gathers them: all, or only the faults.
type Feed = fn(&mut Decoder, &[u8], &mut [Piece<u64>]) -> Progress;

/// All pieces of what a reader gives, each with its offset from the first byte that is read: those of a [`Decoder`](crate::Decoder).
///
/// ```
/// use noddychest::{io, Encoding};
/// let mut offsets = Vec::new();
/// for piece in io::pieces(&b"na\xC3\xAFve \xFF"[..], Encoding::Utf8) {
///     offsets.push(piece?.offset);
/// }
/// assert_eq!(offsets, [0, 1, 2, 4, 5, 6, 7]);
/// # Ok::<(), std::io::Error>(())
/// ```
pub fn pieces<R: BufRead>(reader: R, encoding: Encoding) -> Pieces<R> {
    Pieces { source: Source::new(reader, encoding) }
}

/// Only the invalid bytes, each as [`pieces`] gives it. Text between them is skipped as fast as it is validated. It needs the
/// memory of what the reader holds, whatever the length of all input.
///
/// ```
/// use noddychest::{io, Encoding};
/// for fault in io::faults(&b"ok\0\xD8!\0"[..], Encoding::Utf16Be) {
///     assert_eq!(fault?.to_string(), "invalid UTF-16 at offset 2: UnmatchedLeadingSurrogate");
///     # break;
/// }
/// # Ok::<(), std::io::Error>(())
/// ```
pub fn faults<R: BufRead>(reader: R, encoding: Encoding) -> Faults<R> {
    Faults { source: Source::new(reader, encoding) }
}

/// A reader, and the pieces that were gathered of it and not given yet.
struct Source<R> {
    reader: R,
    decoder: Decoder,
    buffer: Box<[Piece<u64>]>,
    begin: usize,
    end: usize,
    has_ended: bool,
}

/// The reader and the decoder, and how many pieces were gathered: not each of them.
impl<R: fmt::Debug> fmt::Debug for Source<R> {
    fn fmt(&self, f: &mut fmt::Formatter<'_>) -> fmt::Result {
        let mut shown = f.debug_struct("Source");
        shown.field("reader", &self.reader).field("decoder", &self.decoder).field("gathered", &(self.end - self.begin));
        shown.field("has_ended", &self.has_ended).finish()
    }
}

impl<R> Source<R> {
    fn new(reader: R, encoding: Encoding) -> Source<R> {
        let buffer = vec![Piece::default(); ROOM].into_boxed_slice();
        Source { reader, decoder: Decoder::new(encoding), buffer, begin: 0, end: 0, has_ended: false }
    }

    /// The next piece of those that were gathered.
    #[inline(always)]
    fn take(&mut self) -> Option<Piece<u64>> {
        let piece = self.buffer[..self.end].get(self.begin)?;
        self.begin += 1;
        Some(*piece)
    }
}

impl<R: BufRead> Source<R> {
    /// The next piece, of what was gathered or of what the reader gives next.
    #[inline(always)]
    fn next(&mut self, feed: Feed) -> Option<Result<Piece<u64>>> {
        loop {
            if let Some(piece) = self.take() {
                return Some(Ok(piece));
            }
            if let Err(error) = self.gather(feed)? {
                return Some(Err(error));
            }
        }
    }

    /// Gathers pieces of what the reader gives next; at the end those of what is held, which are all faults, and then nothing.
    #[inline(never)]
    fn gather(&mut self, feed: Feed) -> Option<Result<()>> {
        (self.begin, self.end) = (0, 0);
        if self.has_ended {
            return None;
        }
        let part = match self.reader.fill_buf() {
            Ok(part) => part,
            Err(error) if error.kind() == ErrorKind::Interrupted => return Some(Ok(())),
            Err(error) => return Some(Err(error)),
        };
        if part.is_empty() {
            self.has_ended = true;
            self.end = self.decoder.finish(&mut self.buffer).written;
            return Some(Ok(()));
        }
        let did = feed(&mut self.decoder, part, &mut self.buffer);
        self.end = did.written;
        self.reader.consume(did.read);
        Some(Ok(()))
    }
}

/// The pieces of what a reader gives. [`pieces`] makes it.
///
/// An error of the reader is passed on, and nothing is lost by it: the next call reads on. (It reads on without that if a call was
/// [`Interrupted`](std::io::ErrorKind::Interrupted).) At the end of the reader it gives what is held, and then reads no more.
///
/// ```
/// use noddychest::{io, Encoding};
/// let text = io::pieces(&b"\xAC\x20!\0"[..], Encoding::Utf16Le).map(|piece| Ok(piece?.char().unwrap_or('\u{FFFD}')));
/// assert_eq!(text.collect::<std::io::Result<String>>()?, "€!");
/// # Ok::<(), std::io::Error>(())
/// ```
#[derive(Debug)]
#[must_use = "iterators do nothing unless consumed"]
pub struct Pieces<R> {
    source: Source<R>,
}

impl<R> Pieces<R> {
    /// The reader.
    ///
    /// ```
    /// use noddychest::{io, Encoding};
    /// assert_eq!(io::pieces(&b"a"[..], Encoding::Utf8).get_ref(), b"a");
    /// ```
    #[must_use]
    pub fn get_ref(&self) -> &R {
        &self.source.reader
    }

    /// The reader, to be changed. What is read of it here is missing among what comes, and offsets do not count it.
    ///
    /// ```
    /// use noddychest::{io, Encoding};
    /// use std::io::Read;
    /// let mut pieces = io::pieces(&b"\xEF\xBB\xBF\xFF"[..], Encoding::Utf8);
    /// pieces.get_mut().read_exact(&mut [0; 3])?; // past the byte order mark
    /// assert_eq!(pieces.next().unwrap()?.range(), 0..1);
    /// # Ok::<(), std::io::Error>(())
    /// ```
    #[must_use]
    pub fn get_mut(&mut self) -> &mut R {
        &mut self.source.reader
    }

    /// The reader. What was read of it and not given yet is lost.
    ///
    /// ```
    /// use noddychest::{io, Encoding};
    /// assert_eq!(io::pieces(&b"a"[..], Encoding::Utf8).into_inner(), b"a");
    /// ```
    #[must_use]
    pub fn into_inner(self) -> R {
        self.source.reader
    }
}

impl<R: BufRead> Iterator for Pieces<R> {
    type Item = Result<Piece<u64>>;

    #[inline]
    fn next(&mut self) -> Option<Result<Piece<u64>>> {
        self.source.next(Decoder::feed)
    }
}

impl<R: BufRead> FusedIterator for Pieces<R> {}

/// The invalid bytes of what a reader gives. [`faults`] makes it. Errors of the reader are passed on as [`Pieces`] does.
///
/// ```
/// use noddychest::{io, FaultKind, Encoding};
/// let fault = io::faults(&b"caf\xE9 noir"[..], Encoding::Utf8).next().unwrap()?;
/// assert_eq!((fault.offset(), fault.kind()), (3, FaultKind::InterruptedSequence));
/// # Ok::<(), std::io::Error>(())
/// ```
#[derive(Debug)]
#[must_use = "iterators do nothing unless consumed"]
pub struct Faults<R> {
    source: Source<R>,
}

impl<R> Faults<R> {
    /// The reader.
    ///
    /// ```
    /// use noddychest::{io, Encoding};
    /// assert_eq!(io::faults(&b"a"[..], Encoding::Utf8).get_ref(), b"a");
    /// ```
    #[must_use]
    pub fn get_ref(&self) -> &R {
        &self.source.reader
    }

    /// The reader, to be changed. What is read of it here is missing among what comes, and offsets do not count it.
    ///
    /// ```
    /// use noddychest::{io, Encoding};
    /// use std::io::Read;
    /// let mut faults = io::faults(&b"\xEF\xBB\xBF\xFF"[..], Encoding::Utf8);
    /// faults.get_mut().read_exact(&mut [0; 3])?; // past the byte order mark
    /// assert_eq!(faults.next().unwrap()?.range(), 0..1);
    /// # Ok::<(), std::io::Error>(())
    /// ```
    #[must_use]
    pub fn get_mut(&mut self) -> &mut R {
        &mut self.source.reader
    }

    /// The reader. What was read of it and not given yet is lost.
    ///
    /// ```
    /// use noddychest::{io, Encoding};
    /// assert_eq!(io::faults(&b"a"[..], Encoding::Utf8).into_inner(), b"a");
    /// ```
    #[must_use]
    pub fn into_inner(self) -> R {
        self.source.reader
    }
}

impl<R: BufRead> Iterator for Faults<R> {
    type Item = Result<Fault<u64>>;

    fn next(&mut self) -> Option<Result<Fault<u64>>> {
        let piece = self.source.next(Decoder::feed_faults)?;
        Some(piece.map(|piece| piece.fault().expect("faults alone are gathered")))
    }
}

impl<R: BufRead> FusedIterator for Faults<R> {}
