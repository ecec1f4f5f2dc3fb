//! Transcoding in parts, from one encoding of text in bytes to another.

use crate::proved::cuts;
use crate::{Fault, Repair};
use core::ops::Range;

/// How many bytes `recoded_len` converts by one call.
const COUNTED: usize = 1024;

/// The encoding of text in bytes.
///
/// ```
/// use noddychest::Encoding;
/// assert_eq!("utf16le".parse(), Ok(Encoding::Utf16Le));
/// assert_eq!(Encoding::Utf16Le.to_string(), "utf16le");
/// ```
///
/// More may come, so a `match` needs an arm `_`. This does not compile:
///
/// ```compile_fail,E0004
/// use noddychest::Encoding;
/// let width = |encoding: Encoding| match encoding {
///     Encoding::Utf8 => 1,
///     Encoding::Utf16Le | Encoding::Utf16Be => 2,
/// };
/// ```
#[derive(Clone, Copy, Debug, PartialEq, Eq, Hash)]
#[doc(alias = "encoding")]
#[non_exhaustive]
#[repr(u8)]
pub enum Encoding {
    /// UTF-8.
    Utf8 = 0,
    /// UTF-16, little-endian. Only [`encoding_of_bom`] looks for a byte order mark, and nothing adds one.
    Utf16Le = 1,
    /// UTF-16, big-endian, likewise.
    Utf16Be = 2,
}

impl Encoding {
    /// All encodings. More may come, so it is a slice.
    ///
    /// ```
    /// let all: &[noddychest::Encoding] = noddychest::Encoding::ALL;
    /// assert_eq!(all[0], noddychest::Encoding::Utf8);
    /// ```
    pub const ALL: &'static [Encoding] = &[Encoding::Utf8, Encoding::Utf16Le, Encoding::Utf16Be];

    /// The name, as the program `recode` takes it.
    ///
    /// ```
    /// assert_eq!(noddychest::Encoding::Utf16Be.name(), "utf16be");
    /// ```
    #[must_use]
    pub fn name(self) -> &'static str {
        match self {
            Encoding::Utf8 => "utf8",
            Encoding::Utf16Le => "utf16le",
            Encoding::Utf16Be => "utf16be",
        }
    }

    pub(crate) fn proved(self) -> cuts::Form {
        match self {
            Encoding::Utf8 => cuts::Form::Utf8,
            Encoding::Utf16Le => cuts::Form::Utf16Le,
            Encoding::Utf16Be => cuts::Form::Utf16Be,
        }
    }

    pub(crate) fn of(encoding: cuts::Form) -> Encoding {
        match encoding {
            cuts::Form::Utf8 => Encoding::Utf8,
            cuts::Form::Utf16Le => Encoding::Utf16Le,
            cuts::Form::Utf16Be => Encoding::Utf16Be,
        }
    }
}

impl core::fmt::Display for Encoding {
    fn fmt(&self, f: &mut core::fmt::Formatter<'_>) -> core::fmt::Result {
        f.pad(self.name())
    }
}

/// That a word names no [`Encoding`]: those are `utf8`, `utf16le` and `utf16be`.
///
/// ```
/// let error = "latin1".parse::<noddychest::Encoding>().unwrap_err();
/// assert_eq!(error.to_string(), "unknown encoding: utf8, utf16le and utf16be are known");
/// ```
#[derive(Clone, Copy, Debug, PartialEq, Eq, Hash)]
pub struct UnknownEncoding(());

impl core::fmt::Display for UnknownEncoding {
    fn fmt(&self, f: &mut core::fmt::Formatter<'_>) -> core::fmt::Result {
        f.pad("unknown encoding: utf8, utf16le and utf16be are known")
    }
}

impl core::error::Error for UnknownEncoding {}

/// The labels of the [Encoding Standard](https://encoding.spec.whatwg.org/#names-and-labels) for each encoding, and its own name.
const LABELS: [(Encoding, &[&str]); 3] = [
    (Encoding::Utf8, &["utf8", "utf-8", "unicode-1-1-utf-8", "unicode11utf8", "unicode20utf8", "x-unicode20utf8"]),
    (Encoding::Utf16Le, &["utf16le", "utf-16le", "utf-16", "unicode", "unicodefeff", "csunicode", "iso-10646-ucs-2", "ucs-2"]),
    (Encoding::Utf16Be, &["utf16be", "utf-16be", "unicodefffe"]),
];

/// Takes the labels of the Encoding Standard, as `UTF-8` and `utf-16le`, and the names `utf8`, `utf16le` and `utf16be`: in upper or lower
/// case, with ASCII white space around them.
///
/// ```
/// use noddychest::Encoding;
/// assert_eq!("UTF-16BE".parse(), Ok(Encoding::Utf16Be));
/// assert!("latin1".parse::<Encoding>().is_err());
/// ```
impl core::str::FromStr for Encoding {
    type Err = UnknownEncoding;

    fn from_str(name: &str) -> Result<Encoding, UnknownEncoding> {
        let label = name.trim_matches(|it: char| it.is_ascii_whitespace());
        let is_named = |names: &[&str]| names.iter().any(|it| it.eq_ignore_ascii_case(label));
        LABELS.into_iter().find(|it| is_named(it.1)).map(|it| it.0).ok_or(UnknownEncoding(()))
    }
}

/// The encoding by a byte order mark at the front, and the length of the mark; `None` if the bytes begin with none. The first
/// three bytes are enough.
///
/// UTF-8 has `EF BB BF`, little-endian UTF-16 `FF FE`, and big-endian UTF-16 `FE FF`. Little-endian UTF-32 begins with `FF FE` too, and is
/// taken for UTF-16.
///
/// ```
/// use noddychest::{decode, encoding_of_bom, Encoding};
///
/// let bytes = b"\xFE\xFF\0h\0i";
/// let (encoding, mark) = encoding_of_bom(bytes).unwrap_or((Encoding::Utf8, 0));
/// assert_eq!((encoding, mark), (Encoding::Utf16Be, 2));
/// assert_eq!(decode(encoding, &bytes[mark..]), "hi");
/// ```
///
/// Of a reader, look at its first three bytes:
///
/// ```
/// # #[cfg(feature = "std")] {
/// use noddychest::{encoding_of_bom, io::RecodingReader, Encoding, Recoder};
/// use std::io::{Cursor, Read};
///
/// let mut reader = &b"\xFF\xFEh\0i\0"[..];
/// let mut front = Vec::new();
/// reader.by_ref().take(3).read_to_end(&mut front)?;
/// let (encoding, mark) = encoding_of_bom(&front).unwrap_or((Encoding::Utf8, 0));
/// let all = Cursor::new(front.split_off(mark)).chain(reader);
/// let text = RecodingReader::new(all, Recoder::new(encoding, Encoding::Utf8));
/// assert_eq!(std::io::read_to_string(text)?, "hi");
/// # }
/// # Ok::<(), Box<dyn core::error::Error>>(())
/// ```
#[doc(alias = "byte order mark")]
#[must_use]
pub fn encoding_of_bom(bytes: &[u8]) -> Option<(Encoding, usize)> {
    cuts::form_of_bom(bytes).map(|(encoding, len)| (Encoding::of(encoding), len))
}

/// How a call of a [`Recoder`] or a [`Decoder`](crate::Decoder) ended.
///
/// ```
/// use noddychest::{Encoding, Recoder, Status};
/// let mut recoder = Recoder::new(Encoding::Utf8, Encoding::Utf16Le);
/// assert_eq!(recoder.feed(b"abc", &mut [0; 4]).status, Status::Full);
/// ```
///
/// More may come, so a `match` needs an arm `_`. This does not compile:
///
/// ```compile_fail,E0004
/// use noddychest::Status;
/// let is_over = |status: Status| match status {
///     Status::Done | Status::Fault(_) => true,
///     Status::Full => false,
/// };
/// ```
#[derive(Clone, Copy, Debug, PartialEq, Eq, Hash)]
#[non_exhaustive]
pub enum Status {
    /// The whole part was read, or all that was held was written.
    Done,
    /// The next character, or the next piece, does not fit in the buffer. Call again with the rest of the part, and with an empty
    /// buffer.
    Full,
    /// Of a strict recoder: here the text is invalid. All before it was written, it was read, and nothing was written for it. To go
    /// on after it call again with the rest of the part; to reject the text do not.
    Fault(Fault),
}

/// What one call of a [`Recoder`] or a [`Decoder`](crate::Decoder) did.
///
/// ```
/// use noddychest::{Encoding, Recoder};
/// let mut recoder = Recoder::new(Encoding::Utf8, Encoding::Utf16Le);
/// let did = recoder.feed(b"abc", &mut [0; 4]);
/// assert_eq!((did.read, did.written), (3, 4));
/// assert_eq!(recoder.held(), b"c");
/// ```
///
/// More fields may come, so a pattern needs `..`, and [`new`](Progress::new) makes one.
#[derive(Clone, Copy, Debug, PartialEq, Eq, Hash)]
#[must_use]
#[non_exhaustive]
pub struct Progress {
    /// How many bytes of the part were read.
    pub read: usize,
    /// How many bytes, or pieces, were written at the front of the buffer.
    pub written: usize,
    /// Why the call ended.
    pub status: Status,
}

impl Progress {
    /// What a call did: for a recoder of your own, around this one or in its place.
    ///
    /// ```
    /// use noddychest::{Progress, Status};
    ///
    /// // Passes a part on as it is.
    /// fn copied(part: &[u8], buffer: &mut [u8]) -> Progress {
    ///     let len = part.len().min(buffer.len());
    ///     buffer[..len].copy_from_slice(&part[..len]);
    ///     Progress::new(len, len, if len < part.len() { Status::Full } else { Status::Done })
    /// }
    /// assert_eq!(copied(b"abc", &mut [0; 2]).status, Status::Full);
    /// ```
    pub const fn new(read: usize, written: usize, status: Status) -> Progress {
        Progress { read, written, status }
    }
}

/// Transcodes text in parts, as iconv(3) does: into a buffer of the caller, until it is full.
///
/// The output does not depend on how the text is divided into parts, also if a part ends inside a character. It carries over at most
/// three bytes between calls, allocates nothing, and may be cloned.
///
/// [`new`](Recoder::new) replaces each invalid byte (of UTF-16 each unit) by one U+FFFD, and [`lossy`](Recoder::lossy) each maximal
/// subpart, as browsers do. [`repair`](Recoder::repair) writes what a table has for it, and [`strict`](Recoder::strict) stops at what is
/// invalid.
///
/// ```
/// use noddychest::{Encoding, Recoder, Status};
///
/// let mut recoder = Recoder::new(Encoding::Utf8, Encoding::Utf16Be);
/// let (mut text, mut buffer) = (Vec::new(), [0; 64]);
/// for part in [&b"caf\xC3"[..], b"\xA9 \xFF"] {
///     let did = recoder.feed(part, &mut buffer);
///     assert_eq!(did.status, Status::Done);
///     text.extend_from_slice(&buffer[..did.written]);
/// }
/// let did = recoder.finish(&mut buffer);
/// text.extend_from_slice(&buffer[..did.written]);
/// assert_eq!(text, b"\0c\0a\0f\0\xE9\0 \xFF\xFD");
/// ```
#[doc(alias = "chunk")]
#[doc(alias = "transcode")]
#[derive(Clone, Debug)]
pub struct Recoder {
    inner: cuts::Recoder,
    encodings: (Encoding, Encoding),
    errors: Errors,
    offset: usize,
}

/// What becomes of what is invalid.
#[derive(Clone, Copy, Debug)]
#[allow(clippy::large_enum_variant)]
enum Errors {
    Replace,
    Lossy,
    Repair(Repair),
    Strict,
}

impl Recoder {
    /// A recoder that replaces what is invalid by U+FFFD. The encodings may be the same.
    ///
    /// ```
    /// use noddychest::{Encoding, Recoder};
    /// let mut buffer = [0; 8];
    /// let did = Recoder::new(Encoding::Utf8, Encoding::Utf8).feed(b"a\xFFb", &mut buffer);
    /// assert_eq!(&buffer[..did.written], "a\u{FFFD}b".as_bytes());
    /// ```
    #[must_use]
    pub fn new(from: Encoding, to: Encoding) -> Recoder {
        let inner = cuts::Recoder::new(from.proved(), to.proved());
        Recoder { inner, encodings: (from, to), errors: Errors::Replace, offset: 0 }
    }

    /// A recoder that writes one U+FFFD for each *maximal subpart*, as browsers, Python's own codecs and
    /// [`String::from_utf8_lossy`] do. One to three bytes that begin a character and do not end it are one, and so is any other invalid
    /// byte. In UTF-16 it writes what [`new`](Recoder::new) writes, but that a leading surrogate and half a unit that end the text become
    /// one U+FFFD.
    ///
    /// ```
    /// use noddychest::{Encoding, Recoder};
    /// let (mut recoder, mut buffer) = (Recoder::lossy(Encoding::Utf8, Encoding::Utf8), [0; 8]);
    /// let did = recoder.feed(b"\xE2\x82A", &mut buffer);
    /// assert_eq!(&buffer[..did.written], "\u{FFFD}A".as_bytes());
    /// assert_eq!(recoder.replaced(), 2);
    /// ```
    ///
    /// [`String::from_utf8_lossy`]: https://doc.rust-lang.org/std/string/struct.String.html#method.from_utf8_lossy
    #[must_use]
    pub fn lossy(from: Encoding, to: Encoding) -> Recoder {
        Recoder { errors: Errors::Lossy, ..Recoder::new(from, to) }
    }

    /// A recoder that writes for each invalid byte what a table has for it: the character that it is in an older encoding, or nothing. In
    /// UTF-16 a lone surrogate, or an odd last byte, becomes U+FFFD, or nothing with [`Repair::DROP`]. So the output is valid, and valid
    /// input stays as it is.
    ///
    /// ```
    /// use noddychest::{Encoding, Recoder, Repair};
    /// let mut recoder = Recoder::repair(Encoding::Utf8, Encoding::Utf8, Repair::WINDOWS_1252);
    /// let mut buffer = [0; 16];
    /// let did = recoder.feed(b"\x93caf\xC3\xA9\x94", &mut buffer);
    /// assert_eq!(&buffer[..did.written], "“café”".as_bytes());
    /// assert_eq!(recoder.replaced(), 2);
    /// ```
    #[must_use]
    pub fn repair(from: Encoding, to: Encoding, repair: Repair) -> Recoder {
        Recoder { errors: Errors::Repair(repair), ..Recoder::new(from, to) }
    }

    /// A recoder that stops at what is invalid, and says where it is and why: at the offsets and with the kinds that
    /// [`pieces`](crate::pieces) of the whole text have, however the text is cut. After `E9 0A` it waits for a third byte, which decides
    /// the kind. Offsets are modulo the numbers of a `usize`.
    ///
    /// ```
    /// use noddychest::{FaultKind, Encoding, Recoder, Status};
    /// let (mut recoder, mut buffer) = (Recoder::strict(Encoding::Utf8, Encoding::Utf16Le), [0; 8]);
    /// let did = recoder.feed(b"a\xFFb", &mut buffer);
    /// assert_eq!(&buffer[..did.written], b"a\0");
    /// let Status::Fault(fault) = did.status else { panic!("there is a fault") };
    /// assert_eq!((fault.offset(), fault.kind()), (1, FaultKind::NonUtf8Byte));
    ///
    /// // On after it, which `read` counts:
    /// assert_eq!(did.read, 2);
    /// let did = recoder.feed(b"b", &mut buffer);
    /// assert_eq!(&buffer[..did.written], b"b\0");
    /// ```
    #[must_use]
    pub fn strict(from: Encoding, to: Encoding) -> Recoder {
        Recoder { errors: Errors::Strict, ..Recoder::new(from, to) }
    }

    /// The encoding that it reads.
    ///
    /// ```
    /// use noddychest::{Encoding, Recoder};
    /// assert_eq!(Recoder::new(Encoding::Utf8, Encoding::Utf16Le).from(), Encoding::Utf8);
    /// ```
    #[must_use]
    pub fn from(&self) -> Encoding {
        self.encodings.0
    }

    /// The encoding that it writes.
    ///
    /// ```
    /// use noddychest::{Encoding, Recoder};
    /// assert_eq!(Recoder::new(Encoding::Utf8, Encoding::Utf16Le).to(), Encoding::Utf16Le);
    /// ```
    #[must_use]
    pub fn to(&self) -> Encoding {
        self.encodings.1
    }

    /// The bytes, at most three, that were read and of which nothing was written yet.
    ///
    /// ```
    /// use noddychest::{Encoding, Recoder};
    /// let mut recoder = Recoder::new(Encoding::Utf8, Encoding::Utf16Le);
    /// let did = recoder.feed(b"a\xF0\x9F", &mut [0; 16]);
    /// assert_eq!((did.read, recoder.held()), (3, &b"\xF0\x9F"[..]));
    /// ```
    #[must_use]
    pub fn held(&self) -> &[u8] {
        self.inner.held()
    }

    /// How many invalid bytes (of UTF-16 units) it has replaced so far: by U+FFFD, or by what a [`Repair`] has for them, also if that is
    /// nothing. A lossy recoder counts them too, and not U+FFFD: a maximal subpart of three bytes counts as three. A U+FFFD in the text does
    /// not count, and a strict recoder replaces none. After [`finish`](Recoder::finish) is done, it is the number for the whole text.
    ///
    /// ```
    /// use noddychest::{Encoding, Recoder};
    /// let (mut recoder, mut buffer) = (Recoder::new(Encoding::Utf8, Encoding::Utf8), [0; 16]);
    /// let _ = recoder.feed("a\u{FFFD}".as_bytes(), &mut buffer);
    /// assert_eq!(recoder.replaced(), 0);
    /// let _ = recoder.feed(b"\xFF\xE2\x82", &mut buffer);
    /// assert_eq!(recoder.replaced(), 1);
    /// let _ = recoder.finish(&mut buffer);
    /// assert_eq!(recoder.replaced(), 3);
    /// ```
    #[must_use]
    pub fn replaced(&self) -> u64 {
        self.inner.replaced()
    }

    /// Feeds a part of the text, until the buffer is full. With a buffer of four bytes or more each call with a part that is not empty reads
    /// or writes something, or returns a fault; an empty part is [`Status::Done`] or writes what is held.
    ///
    /// After the bytes that were written, the rest of the buffer may hold anything: use only its first `written` bytes.
    ///
    /// ```
    /// use noddychest::{Encoding, Recoder, Status};
    /// let (mut recoder, mut rest, mut out) = (Recoder::new(Encoding::Utf16Le, Encoding::Utf8), &b"\xAC\x20\xAC\x20"[..], Vec::new());
    /// loop {
    ///     let mut buffer = [0; 4];
    ///     let did = recoder.feed(rest, &mut buffer);
    ///     out.extend_from_slice(&buffer[..did.written]);
    ///     rest = &rest[did.read..];
    ///     if did.status == Status::Done {
    ///         break;
    ///     }
    /// }
    /// assert_eq!(out, "€€".as_bytes());
    /// ```
    pub fn feed(&mut self, part: &[u8], buffer: &mut [u8]) -> Progress {
        let did = match &self.errors {
            Errors::Replace => relayed(self.inner.feed_into(part, buffer)),
            Errors::Lossy => relayed(self.inner.feed_lossy_into(part, buffer)),
            Errors::Repair(repair) => relayed(self.inner.feed_repaired_into(part, buffer, repair.proved())),
            Errors::Strict => {
                let did = self.inner.feed_strict_into(part, buffer);
                self.told(did)
            }
        };
        self.offset = self.offset.wrapping_add(did.read);
        did
    }

    /// Writes what is held, at most nine bytes, when no more follows. [`Status::Full`]: call this again with an empty buffer. The rest of the
    /// buffer may hold anything.
    ///
    /// A strict recoder gives a [`Status::Fault`] for the first invalid byte of those that it holds. Call this again until it is done: valid
    /// bytes after that one are written.
    ///
    /// ```
    /// use noddychest::{Encoding, Recoder};
    /// let (mut recoder, mut buffer) = (Recoder::new(Encoding::Utf8, Encoding::Utf8), [0; 9]);
    /// assert_eq!(recoder.feed(b"\xE2\x82", &mut buffer).written, 0);
    /// let did = recoder.finish(&mut buffer);
    /// assert_eq!(&buffer[..did.written], "\u{FFFD}\u{FFFD}".as_bytes());
    /// ```
    pub fn finish(&mut self, buffer: &mut [u8]) -> Progress {
        match &self.errors {
            Errors::Replace => relayed(self.inner.finish_into(buffer)),
            Errors::Lossy => relayed(self.inner.finish_lossy_into(buffer)),
            Errors::Repair(repair) => relayed(self.inner.finish_repaired_into(buffer, repair.proved())),
            Errors::Strict => {
                let did = self.inner.finish_strict_into(buffer);
                self.told(did)
            }
        }
    }

    /// What a strict call did, with the offset of the fault in all that was fed.
    fn told(&self, did: cuts::StrictProgress) -> Progress {
        let status = match did.outcome {
            cuts::Outcome::AllRead => Status::Done,
            cuts::Outcome::Full => Status::Full,
            cuts::Outcome::Faulty(fault) => {
                let offset = self.offset.wrapping_add(did.read).wrapping_sub(fault.back);
                Status::Fault(Fault::new(offset, fault.len as u8, fault.kind.into()))
            }
        };
        Progress { read: did.read, written: did.written, status }
    }
}

/// What a call did that stops at nothing.
fn relayed(did: cuts::Progress) -> Progress {
    let status = if did.is_full { Status::Full } else { Status::Done };
    Progress { read: did.read, written: did.written, status }
}

/// An upper bound of the output for `len` bytes, with what `finish` writes; `None` if a `usize` cannot count it. Add to
/// `len` those that a recoder holds.
///
/// ```
/// use noddychest::{recoded_len_max, Encoding};
/// assert!(recoded_len_max(Encoding::Utf8, Encoding::Utf16Le, 100) >= Some(200));
/// assert_eq!(recoded_len_max(Encoding::Utf8, Encoding::Utf16Le, usize::MAX), None);
/// ```
#[must_use]
pub fn recoded_len_max(from: Encoding, to: Encoding, len: usize) -> Option<usize> {
    cuts::room_for(from.proved(), to.proved(), len).filter(|most| *most != usize::MAX)
}

/// How many bytes these are converted to, with U+FFFD for what is invalid: the length of what `recode` gives. So a shard knows where
/// its output begins before any is recoded. It converts all once, in parts, and needs 4 KiB of the stack.
///
/// ```
/// use noddychest::{recoded_len, Encoding};
/// assert_eq!(recoded_len(Encoding::Utf8, Encoding::Utf16Le, "a€".as_bytes()), 4);
/// assert_eq!(recoded_len(Encoding::Utf8, Encoding::Utf8, b"\xE2\x82A"), 7);
/// ```
#[must_use]
pub fn recoded_len(from: Encoding, to: Encoding, bytes: &[u8]) -> usize {
    let mut recoder = Recoder::new(from, to);
    let mut buffer = [0; 4 * COUNTED];
    let mut len = 0_usize;
    // (a byte becomes three at most, and three are held at most: so the buffer has room for the output of a part)
    for part in bytes.chunks(COUNTED) {
        len = len.saturating_add(recoder.feed(part, &mut buffer).written);
    }
    len.saturating_add(recoder.finish(&mut buffer).written)
}

/// The last offset, up to `at`, where bytes of that encoding may be cut, so that each side can be converted separately and the outputs joined.
/// They are what the whole becomes: by [`recode`](crate::recode), by [`recode_lossy`](crate::recode_lossy), by
/// [`recode_repaired`](crate::recode_repaired), and by [`recode_strict`](crate::recode_strict) up to the first side with an invalid byte.
/// The offset is inside no character and no maximal subpart, and at most three bytes before `at`. If `at` is the length or more, it is the
/// length.
///
/// ```
/// use noddychest::{shard_end, Encoding};
/// assert_eq!(shard_end(Encoding::Utf8, "a€b".as_bytes(), 3), 1);
/// assert_eq!(shard_end(Encoding::Utf8, b"\xE2\x82A", 1), 0);
/// assert_eq!(shard_end(Encoding::Utf16Le, b"a\0b\0", 3), 2);
/// ```
#[doc(alias = "chunk")]
#[must_use]
pub fn shard_end(from: Encoding, bytes: &[u8], at: usize) -> usize {
    cuts::shard_end(from.proved(), bytes, at)
}

/// The part of a text outside of which no piece changes if the bytes of a range are replaced by any others, of any number: what to
/// decode again after an edit. What was decoded before its start stays, and what was decoded from its end on moves with its bytes.
///
/// `bytes` is the text after the edit, and `range` where the new bytes are in it; or the text before the edit, and the bytes that go.
/// Both say the same, since the end moves by as much as the text grew. The result begins and ends at boundaries, at most six bytes
/// before and after the range. Offsets above the length count as the length, and a start above the end counts as the end.
///
/// In UTF-16, if the length changes by an odd number of bytes, all pieces from the start of the result on may change: each unit has
/// other bytes then.
///
/// ```
/// use noddychest::{changed_range, Encoding};
/// let text = "abc€def€ghi"; // "d" was replaced by "de"
/// assert_eq!(changed_range(Encoding::Utf8, text.as_bytes(), 6..8), 3..12);
/// ```
#[must_use]
pub fn changed_range(encoding: Encoding, bytes: &[u8], range: Range<usize>) -> Range<usize> {
    let changed = cuts::changed_range(encoding.proved(), bytes, range.start, range.end);
    changed.start..changed.end
}

#[cfg(test)]
mod tests {
    use super::{Encoding, Recoder, Status};

    /// If a `usize` has 32 bits, more than it counts may be fed.
    #[test]
    fn counts_on_from_zero() {
        let mut recoder = Recoder { offset: usize::MAX, ..Recoder::strict(Encoding::Utf8, Encoding::Utf8) };
        assert_eq!(recoder.feed(b"ab", &mut [0; 8]).read, 2);
        let did = recoder.feed(b"\xFF", &mut [0; 8]);
        assert!(matches!(did.status, Status::Fault(fault) if fault.offset() == 1));
    }
}
