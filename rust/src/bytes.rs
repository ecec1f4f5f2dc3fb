//! UTF-8: bytes, split from either end.

use crate::pieces::{Element, Faults, Found, Pieces};
use crate::proved::cuts;
use crate::proved::encode_unicode::error::Utf8Error;
use crate::proved::encode_unicode::iterator::{Utf8CharDecoder, Utf8CharMerger};
use crate::proved::encode_unicode::{CharExt, Utf8Char};
use crate::{Encoding, Piece};

/// All pieces of the bytes: characters, and single bytes that are invalid.
///
/// Nothing is allocated.
///
/// ```
/// let text: String = noddychest::pieces(b"na\xC3\xAFve \xE2\x82").map(|piece| piece.result.unwrap_or('\u{FFFD}')).collect();
/// assert_eq!(text, "naïve \u{FFFD}\u{FFFD}");
/// ```
#[doc(alias = "decode_utf8")]
#[doc(alias = "utf8_chunks")]
pub fn pieces(bytes: &[u8]) -> Pieces<'_> {
    Pieces::from(bytes)
}

/// The piece at the front, or `None` if there are no bytes.
///
/// ```
/// let piece = noddychest::first("€5".as_bytes()).unwrap();
/// assert_eq!((piece.len, piece.char()), (3, Some('€')));
/// assert_eq!(noddychest::first(b""), None);
/// ```
#[must_use]
pub fn first(bytes: &[u8]) -> Option<Piece> {
    u8::first_of(bytes, 0)
}

/// The piece at the end, or `None` if there are no bytes. At most four bytes are looked at.
///
/// ```
/// let piece = noddychest::last("5€".as_bytes()).unwrap();
/// assert_eq!((piece.offset, piece.char()), (1, Some('€')));
/// ```
#[must_use]
pub fn last(bytes: &[u8]) -> Option<Piece> {
    u8::last_of(bytes, 0)
}

/// The offset of the first invalid byte, or the length where all is UTF-8, as [`core::str::Utf8Error::valid_up_to`] says it.
///
/// `error_len` of that error is the length of a maximal subpart, where each invalid byte is a fault here. It is `None` if the bytes from
/// there on are the front of a character: then a [`Recoder`](crate::Recoder) that is fed all bytes holds these.
///
/// ```
/// let bytes = b"ok\xF0\x9F then";
/// let valid = noddychest::valid_up_to(bytes);
/// assert_eq!(std::str::from_utf8(&bytes[..valid]), Ok("ok"));
/// ```
#[doc(alias = "from_utf8")]
#[doc(alias = "is_valid")]
#[must_use]
pub fn valid_up_to(bytes: &[u8]) -> usize {
    let front = ascii_before_line(bytes);
    front + cuts::valid_up_to(&bytes[front..])
}

/// The fewest bytes of which some at the front are passed, so that vectors lie within the lines of a CPU's cache.
const LONG: usize = 4096;
/// How many bytes a cache line has, and the offset from which on the proved text uses vectors.
const LINE: usize = 64;
const BEFORE_VECTORS: usize = 32;

/// How many bytes to skip at the front of a long text, fewer than a cache line: none if one of these is not ASCII. (Each ASCII byte is a
/// character, so the first invalid byte of what is left is that of the whole.)
#[inline(always)]
fn ascii_before_line(bytes: &[u8]) -> usize {
    if bytes.len() < LONG {
        return 0;
    }
    let front = bytes.as_ptr().wrapping_add(BEFORE_VECTORS).align_offset(LINE);
    if bytes.get(..front).is_some_and(<[u8]>::is_ascii) {
        front
    } else {
        0
    }
}

/// Only the invalid bytes, each as [`pieces`] gives it from the front. Text between them is skipped about as fast as it is validated, from
/// either end.
///
/// ```
/// let faults = noddychest::faults(b"ok\xFF, but \xE2\x82");
/// assert_eq!(faults.map(|fault| fault.offset()).collect::<Vec<_>>(), [2, 9, 10]);
/// ```
#[doc(alias = "error")]
pub fn faults(bytes: &[u8]) -> Faults<'_> {
    Faults::from(bytes)
}

/// How many characters there are, with each invalid byte counted as one: as many as [`pieces`] gives, and as many as are shown if
/// each invalid byte is one U+FFFD.
///
/// ```
/// assert_eq!(noddychest::char_count("naïve".as_bytes()), 5);
/// assert_eq!(noddychest::char_count(b"a\xFFb"), 3);
/// ```
#[must_use]
pub fn char_count(bytes: &[u8]) -> usize {
    cuts::char_count(bytes)
}

/// The offset of the piece with this number, counted from 0: that of the [`pieces`] `nth(number)`, found as fast as text is validated.
/// `None` if there are no more pieces.
///
/// ```
/// let bytes = b"h\xC3\xA9\xE2\x82A";
/// assert_eq!(noddychest::offset_of(bytes, 2), Some(3));
/// assert_eq!(noddychest::offset_of(bytes, 5), None);
/// ```
#[must_use]
pub fn offset_of(bytes: &[u8], number: usize) -> Option<usize> {
    cuts::offset_of(bytes, number)
}

/// How many pieces begin before this offset. If a piece begins at the offset, this is its number, counted from 0. If the offset is the
/// length or more, all pieces are counted.
///
/// ```
/// let bytes = b"h\xC3\xA9\xE2\x82A";
/// assert_eq!(noddychest::number_of(bytes, 3), 2);
/// assert_eq!(noddychest::number_of(bytes, 99), 5);
/// ```
#[must_use]
pub fn number_of(bytes: &[u8], offset: usize) -> usize {
    cuts::number_of(bytes, offset)
}

/// The last boundary between two pieces that is at most `at`. It is at most three bytes before `at`. If `at` is the length or more, it
/// is the length. So `&bytes[..boundary_before(bytes, n)]` has at most `n` bytes, and splits no character.
///
/// ```
/// let bytes = "5€".as_bytes();
/// assert_eq!(noddychest::boundary_before(bytes, 3), 1);
/// assert_eq!(noddychest::boundary_before(bytes, 9), 4);
/// ```
#[doc(alias = "floor_char_boundary")]
#[must_use]
pub fn boundary_before(bytes: &[u8], at: usize) -> usize {
    crate::encodings::boundary_before(Encoding::Utf8, bytes, at)
}

/// The first boundary between two pieces that is at least `at`, or the length.
///
/// ```
/// let bytes = "5€".as_bytes();
/// assert_eq!(noddychest::boundary_after(bytes, 2), 4);
/// assert_eq!(noddychest::boundary_after(bytes, 1), 1);
/// ```
#[doc(alias = "ceil_char_boundary")]
#[must_use]
pub fn boundary_after(bytes: &[u8], at: usize) -> usize {
    cuts::boundary_after(Encoding::Utf8.proved(), bytes, at)
}

/// The piece that begins at `at`, as a decoder that gets one byte at a time names it; `None` from the length on.
///
/// It differs from [`pieces`] in one kind: where fewer bytes are left than the first one needs, and one of those breaks the
/// sequence, it says `InterruptedSequence` and not `TooFewBytes`. `at` should be a boundary.
///
/// ```
/// use noddychest::{first, streamed_at, FaultKind};
/// assert_eq!(first(b"\xF0\x9FA").unwrap().fault().unwrap().kind(), FaultKind::TooFewBytes);
/// assert_eq!(streamed_at(b"\xF0\x9FA", 0).unwrap().fault().unwrap().kind(), FaultKind::InterruptedSequence);
/// ```
#[must_use]
pub fn streamed_at(bytes: &[u8], at: usize) -> Option<Piece> {
    let result = Utf8CharMerger::from(bytes.get(at..)?.iter().copied()).next()?;
    Some(Piece::of(at, result.as_ref().map_or(1, |c| c.len()), of_kind(result)))
}

impl Element for u8 {
    const MOST: usize = 4;

    /// That of text first, since most bytes are some.
    #[inline(always)]
    fn first_of(left: &[u8], offset: usize) -> Option<Piece> {
        match cuts::front_of_text(left) {
            Some((c, len)) => Some(Piece { offset, len, result: Ok(c) }),
            None => first_with_care(left, offset),
        }
    }

    #[inline(always)]
    fn last_of(left: &[u8], offset: usize) -> Option<Piece> {
        let (at, result, len) = Utf8CharDecoder::from(left).next_back()?;
        Some(Piece::of(offset + at, len, of_kind(result)))
    }

    #[inline(always)]
    fn valid_up_to(left: &[u8]) -> usize {
        valid_up_to(left)
    }

    fn boundary_before(left: &[u8], at: usize) -> usize {
        boundary_before(left, at)
    }

    fn faults_into(left: &[u8], offset: usize, found: &mut [Found]) -> cuts::Fed {
        cuts::faults_into(left, offset as u64, found)
    }
}

#[cold]
#[inline(never)]
fn first_with_care(left: &[u8], offset: usize) -> Option<Piece> {
    if left.is_empty() {
        return None;
    }
    Some(match char::from_utf8_slice_start(left) {
        Ok((c, len)) => Piece { offset, len, result: Ok(c) },
        Err(error) => Piece::of(offset, 1, Err::<char, _>(error.kind())),
    })
}

/// The character, or only the kind.
#[inline(always)]
pub(crate) fn of_kind(result: Result<Utf8Char, Utf8Error>) -> Result<Utf8Char, crate::encode_unicode::error::Utf8ErrorKind> {
    result.map_err(|error| error.kind())
}
