//! Decoding in parts: pieces of input that may be cut anywhere, each with its offset.

use crate::proved::cuts;
use crate::{Encoding, Piece, Progress, Status};

/// Splits input that comes in parts into characters and invalid bytes, each with its offset from the first byte of all input.
///
/// The pieces are the same however the input is cut into parts, also if a part ends in the middle of a character. It holds at most
/// three bytes between calls, none of which is decided yet, allocates nothing, and may be cloned. Over a reader, [`io::pieces`] feeds it.
///
/// The kinds are those of [`pieces`](crate::pieces) but for one case, which [`streamed_at`](crate::streamed_at) names: at the end of the
/// input it says of `F0 41` that the sequence is interrupted, and not that bytes are too few. UTF-16 is read in bytes: what is invalid has
/// two bytes, and an odd byte at the end is an [`Incomplete`](crate::FaultKind::Incomplete) of its own.
///
/// ```
/// use noddychest::{Decoder, FaultKind, Encoding, Piece, Status};
///
/// let mut decoder = Decoder::new(Encoding::Utf8);
/// let mut buffer = [Piece::default(); 8];
/// let did = decoder.feed(b"a\xE2\x82", &mut buffer);
/// assert_eq!((did.read, did.written, did.status), (3, 1, Status::Done));
/// assert_eq!((decoder.held(), decoder.offset()), (&b"\xE2\x82"[..], 1));
///
/// let did = decoder.feed(b"\xAC\xFF", &mut buffer);
/// assert_eq!((buffer[0].offset, buffer[0].len, buffer[0].char()), (1, 3, Some('€')));
/// let fault = buffer[1].fault().unwrap();
/// assert_eq!((did.written, fault.offset(), fault.kind()), (2, 4, FaultKind::NonUtf8Byte));
/// assert_eq!(decoder.finish(&mut buffer).written, 0);
/// ```
///
/// [`io::pieces`]: crate::io::pieces
#[doc(alias = "chunk")]
#[doc(alias = "decode_utf8")]
#[derive(Clone, Debug)]
pub struct Decoder {
    inner: cuts::Decoder,
}

impl Decoder {
    /// A decoder of input of that encoding.
    ///
    /// ```
    /// use noddychest::{Decoder, Encoding};
    /// assert!(Decoder::new(Encoding::Utf16Be).held().is_empty());
    /// ```
    #[must_use]
    pub fn new(encoding: Encoding) -> Decoder {
        Decoder { inner: cuts::Decoder::new(encoding.proved()) }
    }

    /// The encoding of the input.
    ///
    /// ```
    /// use noddychest::{Decoder, Encoding};
    /// assert_eq!(Decoder::new(Encoding::Utf16Be).encoding(), Encoding::Utf16Be);
    /// ```
    #[must_use]
    pub fn encoding(&self) -> Encoding {
        Encoding::of(self.inner.form())
    }

    /// The bytes, at most three, that were read and of which no piece was given yet.
    ///
    /// ```
    /// use noddychest::{Decoder, Encoding, Piece};
    /// let mut decoder = Decoder::new(Encoding::Utf8);
    /// let did = decoder.feed(b"a\xF0\x9F", &mut [Piece::default(); 4]);
    /// assert_eq!((did.read, decoder.held()), (3, &b"\xF0\x9F"[..]));
    /// ```
    #[must_use]
    pub fn held(&self) -> &[u8] {
        self.inner.held()
    }

    /// The offset of the next piece: of the first byte that is held or will be read.
    ///
    /// ```
    /// use noddychest::{Decoder, Encoding, Piece};
    /// let mut decoder = Decoder::new(Encoding::Utf8);
    /// let did = decoder.feed(b"ab\xC3", &mut [Piece::default(); 4]);
    /// assert_eq!((did.read, decoder.offset()), (3, 2));
    /// ```
    #[must_use]
    pub fn offset(&self) -> u64 {
        self.inner.offset()
    }

    /// Feeds a part of the input, and writes its pieces to the front of the buffer, until it is full. [`Status::Full`]: the next
    /// piece is known already; call again with the rest of the part, even where nothing is left of it. [`Status::Done`]: the whole part
    /// was read.
    ///
    /// ```
    /// use noddychest::{Decoder, Encoding, Piece, Status};
    /// let (mut decoder, mut rest, mut text) = (Decoder::new(Encoding::Utf8), "naïve".as_bytes(), String::new());
    /// loop {
    ///     let mut buffer = [Piece::default(); 2];
    ///     let did = decoder.feed(rest, &mut buffer);
    ///     text.extend(buffer[..did.written].iter().filter_map(|piece| piece.char()));
    ///     rest = &rest[did.read..];
    ///     if did.status == Status::Done {
    ///         break;
    ///     }
    /// }
    /// assert_eq!(text, "naïve");
    /// ```
    pub fn feed(&mut self, part: &[u8], buffer: &mut [Piece<u64>]) -> Progress {
        progress(self.inner.feed(part, buffer))
    }

    /// [`feed`](Decoder::feed), but writes only the invalid bytes: those of its pieces that are no characters. Text
    /// between them is skipped as fast as it is validated. Afterwards the decoder is as after `feed`, so both may be mixed.
    ///
    /// ```
    /// use noddychest::{Decoder, Encoding, Piece, Status};
    /// let (mut decoder, mut buffer) = (Decoder::new(Encoding::Utf8), [Piece::default(); 4]);
    /// let did = decoder.feed_faults(b"a long text\xFF, and more\xE2\x82", &mut buffer);
    /// assert_eq!((did.written, buffer[0].offset, did.status), (1, 11, Status::Done));
    /// assert_eq!(decoder.feed_faults(b"\xAC", &mut buffer).written, 0);
    /// ```
    pub fn feed_faults(&mut self, part: &[u8], buffer: &mut [Piece<u64>]) -> Progress {
        progress(self.inner.feed_faults(part, buffer))
    }

    /// Writes the pieces of what is held, at most three, when no more follows. [`Status::Full`]: call this again with an empty buffer.
    /// [`Status::Done`]: the offset is that of the end of the input.
    ///
    /// ```
    /// use noddychest::{Decoder, FaultKind, Encoding, Piece};
    /// let (mut decoder, mut buffer) = (Decoder::new(Encoding::Utf8), [Piece::default(); 3]);
    /// assert_eq!(decoder.feed(b"\xE2\x82", &mut buffer).written, 0);
    /// assert_eq!(decoder.finish(&mut buffer).written, 2);
    /// assert_eq!(buffer[0].fault().unwrap().kind(), FaultKind::TooFewBytes);
    /// assert_eq!(buffer[1].fault().unwrap().kind(), FaultKind::UnexpectedContinuationByte);
    /// assert_eq!(decoder.offset(), 2);
    /// ```
    pub fn finish(&mut self, buffer: &mut [Piece<u64>]) -> Progress {
        progress(self.inner.finish(buffer))
    }
}

fn progress(did: cuts::Fed) -> Progress {
    Progress { read: did.read, written: did.written, status: if did.is_full { Status::Full } else { Status::Done } }
}

/// How many bytes at the end, at most three, depend on the bytes that follow: the front of a character, or invalid bytes whose kind is open,
/// as `ED A0`. They are as many as a [`Decoder`] holds that was fed just these. Keep
/// them back of a block of a large input, and put them before the next block. All pieces before them are known; if nothing follows, all of
/// them are invalid.
///
/// The kinds are those of a decoder: of `F0 41` the first byte is interrupted whatever follows, so that none depends. `bytes` should begin at
/// a boundary. What it costs does not depend on their number.
///
/// ```
/// use noddychest::{undecided_len, Encoding};
/// assert_eq!(undecided_len(Encoding::Utf8, b"a\xE2\x82"), 2);
/// assert_eq!(undecided_len(Encoding::Utf8, b"a\xF0A"), 0);
/// assert_eq!(undecided_len(Encoding::Utf16Le, b"a\0\x3D\xD8"), 2);
/// ```
#[must_use]
pub fn undecided_len(encoding: Encoding, bytes: &[u8]) -> usize {
    cuts::undecided_len(encoding.proved(), bytes)
}
