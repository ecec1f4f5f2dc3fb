//! Adapters that recode what is read from a reader, or written to a writer, and the pieces of what a reader gives.
//!
//! ```
//! use noddychest::io::RecodingReader;
//! use noddychest::{Encoding, Recoder};
//! use std::io::Read;
//!
//! let file = &b"n\0a\0\xEF\0v\0e\0"[..];
//! let mut text = String::new();
//! RecodingReader::new(file, Recoder::strict(Encoding::Utf16Le, Encoding::Utf8)).read_to_string(&mut text)?;
//! assert_eq!(text, "naïve");
//! # Ok::<(), std::io::Error>(())
//! ```

mod decoding;

use crate::{Fault, Recoder, Status};
use std::fmt;
use std::io::{BufRead, ErrorKind, Read, Result, Write};

pub use decoding::{faults, pieces, Faults, Pieces};

const BLOCK: usize = 8192;
/// A capacity with which every call of a recoder goes on, or finishes.
const ENOUGH: usize = 16;
/// Why the inner writer is there: only `into_inner` takes it, and that takes all.
const THERE: &str = "nothing else takes it";

/// Bytes of which those from `begin` to `end` are of use.
struct Block {
    bytes: Box<[u8]>,
    begin: usize,
    end: usize,
}

impl Block {
    fn new() -> Block {
        Block { bytes: vec![0; BLOCK].into_boxed_slice(), begin: 0, end: 0 }
    }

    fn left(&self) -> &[u8] {
        &self.bytes[self.begin..self.end]
    }
}

/// The number of bytes in use and the capacity, not the bytes.
impl fmt::Debug for Block {
    fn fmt(&self, f: &mut fmt::Formatter<'_>) -> fmt::Result {
        write!(f, "{}/{}", self.left().len(), self.bytes.len())
    }
}

/// Reads from a reader, and gives what that is in another encoding.
///
/// It reads in blocks of 8 KiB, so it may have read more of the inner reader than it has given. If a strict recoder meets invalid
/// text the error has the kind [`InvalidData`](std::io::ErrorKind::InvalidData) and a [`Fault`] in it, after all that is before it
/// was given. Reading on goes on after it. Errors of the inner reader are passed on, and nothing is lost by them.
///
/// It is a [`BufRead`], so it has lines. If a strict recoder meets invalid text inside a line, the front of that line is in the buffer
/// that [`read_line`](BufRead::read_line) was given. The iterator [`lines`](BufRead::lines) has a buffer of its own, and loses it.
///
/// ```
/// use noddychest::io::RecodingReader;
/// use noddychest::{Fault, Encoding, Recoder};
/// use std::io::Read;
///
/// let mut reader = RecodingReader::new(&b"ok\xFF"[..], Recoder::strict(Encoding::Utf8, Encoding::Utf8));
/// let mut text = Vec::new();
/// let error = reader.read_to_end(&mut text).unwrap_err();
/// assert_eq!(text, b"ok");
/// let fault = error.get_ref().and_then(|it| it.downcast_ref::<Fault>()).unwrap();
/// assert_eq!(fault.offset(), 2);
/// ```
#[derive(Debug)]
pub struct RecodingReader<R> {
    inner: R,
    recoder: Recoder,
    /// What was read, and from where on it was not fed yet.
    part: Block,
    /// What was converted, and from where on it was not given yet.
    made: Block,
    fault: Option<Fault>,
    is_full: bool,
    has_ended: bool,
    has_finished: bool,
}

impl<R> RecodingReader<R> {
    /// Transcodes what that reader gives.
    ///
    /// ```
    /// use noddychest::{io::RecodingReader, Encoding, Recoder};
    /// let reader = RecodingReader::new(std::io::stdin(), Recoder::new(Encoding::Utf16Be, Encoding::Utf8));
    /// ```
    #[must_use]
    pub fn new(inner: R, recoder: Recoder) -> RecodingReader<R> {
        let (part, made) = (Block::new(), Block::new());
        RecodingReader { inner, recoder, part, made, fault: None, is_full: false, has_ended: false, has_finished: false }
    }

    /// The reader.
    ///
    /// ```
    /// use noddychest::{io::RecodingReader, Encoding, Recoder};
    /// let reader = RecodingReader::new(&b"a"[..], Recoder::new(Encoding::Utf8, Encoding::Utf8));
    /// assert_eq!(reader.get_ref(), b"a");
    /// ```
    #[must_use]
    pub fn get_ref(&self) -> &R {
        &self.inner
    }

    /// The reader, to be changed. What is read of it here is missing in the text, and offsets do not count it.
    ///
    /// ```
    /// use noddychest::{io::RecodingReader, Encoding, Recoder};
    /// use std::io::Read;
    /// let mut reader = RecodingReader::new(&b"\xFF\xFEa\0"[..], Recoder::new(Encoding::Utf16Le, Encoding::Utf8));
    /// reader.get_mut().read_exact(&mut [0; 2])?; // past the byte order mark
    /// assert_eq!(std::io::read_to_string(reader)?, "a");
    /// # Ok::<(), std::io::Error>(())
    /// ```
    #[must_use]
    pub fn get_mut(&mut self) -> &mut R {
        &mut self.inner
    }

    /// The recoder: what it holds, and how many invalid bytes, or units of UTF-16, it has replaced of what was read.
    ///
    /// ```
    /// use noddychest::{io::RecodingReader, Encoding, Recoder};
    /// let mut reader = RecodingReader::new(&b"a\xFF"[..], Recoder::new(Encoding::Utf8, Encoding::Utf8));
    /// std::io::copy(&mut reader, &mut std::io::sink())?;
    /// assert_eq!(reader.recoder().replaced(), 1);
    /// # Ok::<(), std::io::Error>(())
    /// ```
    #[must_use]
    pub fn recoder(&self) -> &Recoder {
        &self.recoder
    }

    /// The reader. What was read of it and not given yet is lost.
    ///
    /// ```
    /// use noddychest::{io::RecodingReader, Encoding, Recoder};
    /// let reader = RecodingReader::new(&b"a"[..], Recoder::new(Encoding::Utf8, Encoding::Utf8));
    /// assert_eq!(reader.into_inner(), b"a");
    /// ```
    #[must_use]
    pub fn into_inner(self) -> R {
        self.inner
    }
}

impl<R: Read> RecodingReader<R> {
    /// Transcodes what was read, after it has read more where nothing of it is left.
    fn make(&mut self) -> Result<()> {
        if self.part.left().is_empty() && !self.is_full && !self.has_ended {
            let count = self.inner.read(&mut self.part.bytes)?;
            assert!(count <= self.part.bytes.len(), "the reader says that it read more than the buffer can hold");
            (self.part.begin, self.part.end) = (0, count);
            self.has_ended = count == 0;
        }
        let did = if self.has_ended {
            self.recoder.finish(&mut self.made.bytes)
        } else {
            self.recoder.feed(self.part.left(), &mut self.made.bytes)
        };
        self.part.begin += did.read;
        (self.made.begin, self.made.end) = (0, did.written);
        self.is_full = did.status == Status::Full;
        self.has_finished = self.has_ended && did.status == Status::Done;
        if let Status::Fault(fault) = did.status {
            self.fault = Some(fault);
        }
        Ok(())
    }
}

impl<R: Read> Read for RecodingReader<R> {
    fn read(&mut self, buffer: &mut [u8]) -> Result<usize> {
        if buffer.is_empty() {
            return Ok(0);
        }
        let given = self.fill_buf()?.read(buffer)?;
        self.consume(given);
        Ok(given)
    }
}

/// What was converted and not given yet, at most 8 KiB.
///
/// ```
/// use noddychest::io::RecodingReader;
/// use noddychest::{Encoding, Recoder};
/// use std::io::BufRead;
///
/// let file = &b"o\0n\0e\0\n\0t\0w\0o\0"[..];
/// let reader = RecodingReader::new(file, Recoder::new(Encoding::Utf16Le, Encoding::Utf8));
/// assert_eq!(reader.lines().collect::<std::io::Result<Vec<_>>>()?, ["one", "two"]);
/// # Ok::<(), std::io::Error>(())
/// ```
impl<R: Read> BufRead for RecodingReader<R> {
    fn fill_buf(&mut self) -> Result<&[u8]> {
        while self.made.left().is_empty() {
            if let Some(fault) = self.fault.take() {
                return Err(fault.into());
            }
            if self.has_finished {
                break;
            }
            self.make()?;
        }
        Ok(self.made.left())
    }

    /// Consumes that many bytes, and no more than [`fill_buf`](BufRead::fill_buf) returned: what follows is not lost.
    fn consume(&mut self, count: usize) {
        self.made.begin += count.min(self.made.left().len());
    }
}

/// Writes to a writer what it is given, in another encoding.
///
/// It gathers 8 KiB before it writes. Call [`finish`](RecodingWriter::finish) at the end: it writes what is gathered and held. Dropped
/// without it the writer writes that too, as [`BufWriter`](std::io::BufWriter) does, and then nobody hears of an error. If a strict
/// recoder meets invalid text, the error has the kind [`InvalidData`](std::io::ErrorKind::InvalidData) and a [`Fault`] in it. Since a
/// call of `write` that fails must have taken nothing, it comes from the call that follows: the next `write`, `flush` or `finish`.
///
/// ```
/// use noddychest::io::RecodingWriter;
/// use noddychest::{Encoding, Recoder};
/// use std::io::Write;
///
/// let mut writer = RecodingWriter::new(Vec::new(), Recoder::new(Encoding::Utf8, Encoding::Utf16Le));
/// write!(writer, "na{}ve", 'ï')?;
/// writer.finish()?;
/// assert_eq!(writer.into_inner(), b"n\0a\0\xEF\0v\0e\0");
/// # Ok::<(), std::io::Error>(())
/// ```
#[derive(Debug)]
pub struct RecodingWriter<W: Write> {
    /// There until `into_inner` takes it.
    inner: Option<W>,
    recoder: Recoder,
    /// What was converted, and from where on it was not written yet.
    made: Block,
    fault: Option<Fault>,
    /// While the inner writer writes: if that panics, or returns an impossible count, nothing is written once more.
    is_writing: bool,
}

impl<W: Write> RecodingWriter<W> {
    /// Transcodes what is written, to that writer.
    ///
    /// ```
    /// use noddychest::{io::RecodingWriter, Encoding, Recoder};
    /// let writer = RecodingWriter::new(std::io::stdout(), Recoder::new(Encoding::Utf8, Encoding::Utf16Be));
    /// ```
    #[must_use]
    pub fn new(inner: W, recoder: Recoder) -> RecodingWriter<W> {
        RecodingWriter { inner: Some(inner), recoder, made: Block::new(), fault: None, is_writing: false }
    }

    /// Writes what is held and what was gathered, and flushes the writer. After an error call it again to go on. If the error was an
    /// invalid byte, at which a strict recoder stopped, it goes on after that byte.
    ///
    /// ```
    /// use noddychest::{io::RecodingWriter, Encoding, Recoder};
    /// use std::io::Write;
    /// let mut writer = RecodingWriter::new(Vec::new(), Recoder::new(Encoding::Utf8, Encoding::Utf8));
    /// writer.write_all(b"a\xE2\x82")?;
    /// writer.finish()?;
    /// assert_eq!(writer.into_inner(), "a\u{FFFD}\u{FFFD}".as_bytes());
    /// # Ok::<(), std::io::Error>(())
    /// ```
    pub fn finish(&mut self) -> Result<()> {
        self.tell()?;
        self.write_rest()?;
        self.flush_inner()
    }

    /// The writer. It has been given what was written to it, and not yet what is gathered.
    ///
    /// ```
    /// use noddychest::{io::RecodingWriter, Encoding, Recoder};
    /// use std::io::Write;
    /// let mut writer = RecodingWriter::new(Vec::new(), Recoder::new(Encoding::Utf8, Encoding::Utf8));
    /// writer.write_all(b"a")?;
    /// assert!(writer.get_ref().is_empty());
    /// writer.flush()?;
    /// assert_eq!(writer.get_ref(), b"a");
    /// # Ok::<(), std::io::Error>(())
    /// ```
    #[must_use]
    pub fn get_ref(&self) -> &W {
        self.inner.as_ref().expect(THERE)
    }

    /// The writer, to be changed. What is written to it here comes before all that is gathered: call
    /// [`flush`](std::io::Write::flush) first.
    ///
    /// ```
    /// use noddychest::{io::RecodingWriter, Encoding, Recoder};
    /// let mut writer = RecodingWriter::new(Vec::new(), Recoder::new(Encoding::Utf8, Encoding::Utf16Le));
    /// writer.get_mut().extend(b"\xFF\xFE"); // a byte order mark
    /// assert_eq!(writer.into_inner(), b"\xFF\xFE");
    /// ```
    #[must_use]
    pub fn get_mut(&mut self) -> &mut W {
        self.inner.as_mut().expect(THERE)
    }

    /// The recoder: what it holds, and how many invalid bytes it has replaced.
    ///
    /// ```
    /// use noddychest::{io::RecodingWriter, Encoding, Recoder};
    /// use std::io::Write;
    /// let mut writer = RecodingWriter::new(std::io::sink(), Recoder::new(Encoding::Utf8, Encoding::Utf8));
    /// writer.write_all(b"a\xFF\xE2")?;
    /// assert_eq!((writer.recoder().replaced(), writer.recoder().held()), (1, &b"\xE2"[..]));
    /// # Ok::<(), std::io::Error>(())
    /// ```
    #[must_use]
    pub fn recoder(&self) -> &Recoder {
        &self.recoder
    }

    /// The writer. What is held or gathered is lost: call [`finish`](RecodingWriter::finish) before.
    ///
    /// ```
    /// use noddychest::{io::RecodingWriter, Encoding, Recoder};
    /// let writer = RecodingWriter::new(Vec::new(), Recoder::new(Encoding::Utf8, Encoding::Utf8));
    /// assert!(writer.into_inner().is_empty());
    /// ```
    #[must_use]
    pub fn into_inner(mut self) -> W {
        self.inner.take().expect(THERE)
    }

    /// Writes what was gathered, and then what the recoder holds.
    fn write_rest(&mut self) -> Result<()> {
        loop {
            self.drain()?;
            self.tell()?;
            let did = self.recoder.finish(&mut self.made.bytes);
            self.made.end = did.written;
            match did.status {
                Status::Fault(fault) => self.fault = Some(fault),
                Status::Full => {}
                Status::Done => return self.drain(),
            }
        }
    }

    /// Writes what was gathered.
    fn drain(&mut self) -> Result<()> {
        while let (Some(inner), false) = (&mut self.inner, self.made.left().is_empty()) {
            self.is_writing = true;
            let left = self.made.left();
            let written = inner.write(left);
            assert!(
                written.as_ref().map_or(true, |count| *count <= left.len()),
                "the writer says that it wrote more than there was"
            );
            self.is_writing = false;
            match written {
                Ok(0) => return Err(ErrorKind::WriteZero.into()),
                Ok(count) => self.made.begin += count,
                Err(error) if error.kind() == ErrorKind::Interrupted => {}
                Err(error) => return Err(error),
            }
        }
        (self.made.begin, self.made.end) = (0, 0);
        Ok(())
    }

    fn flush_inner(&mut self) -> Result<()> {
        self.inner.as_mut().map_or(Ok(()), W::flush)
    }

    /// Transcodes what it can of a part, and returns how much of it was read.
    fn feed(&mut self, part: &[u8]) -> usize {
        let did = self.recoder.feed(part, &mut self.made.bytes[self.made.end..]);
        self.made.end += did.written;
        if let Status::Fault(fault) = did.status {
            self.fault = Some(fault);
        }
        did.read
    }

    /// Tells of the invalid byte at which the call before stopped.
    fn tell(&mut self) -> Result<()> {
        self.fault.take().map_or(Ok(()), |fault| Err(fault.into()))
    }
}

impl<W: Write> Write for RecodingWriter<W> {
    fn write(&mut self, part: &[u8]) -> Result<usize> {
        loop {
            self.tell()?;
            if self.made.begin > 0 || self.made.bytes.len() - self.made.end < ENOUGH {
                self.drain()?;
            }
            let read = self.feed(part);
            // (nothing is read of it if a fault, or a character, is among the bytes that are held)
            if read > 0 || part.is_empty() {
                return Ok(read);
            }
        }
    }

    /// Writes all that is decided; the front of a character waits for what follows.
    fn flush(&mut self) -> Result<()> {
        self.tell()?;
        self.drain()?;
        // (a character that did not fit)
        self.feed(&[]);
        self.drain()?;
        self.flush_inner()
    }
}

/// Writes what was gathered and what is held, with a strict recoder up to the first invalid byte. Errors are ignored.
impl<W: Write> Drop for RecodingWriter<W> {
    fn drop(&mut self) {
        if self.inner.is_some() && !self.is_writing {
            let _ = self.write_rest();
        }
    }
}
