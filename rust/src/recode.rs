//! Transcoding of a whole text, and into a `Vec` or a `String` that grows.

use crate::proved::cuts;
use crate::support::memory;
use crate::table::granted;
use crate::{AllocError, Encoding, Fault, Progress, Recoder, Repair, Status};
use alloc::string::String;
use alloc::vec::Vec;

/// How much is converted by one call if it goes to a `String`.
const BLOCK: usize = 1024;

/// What the bytes are in another encoding; each invalid byte (of UTF-16 each unit) becomes one U+FFFD.
///
/// ```
/// use noddychest::{recode, Encoding};
/// assert_eq!(recode(Encoding::Utf16Le, Encoding::Utf8, b"\xAC\x20\x00\xDE"), "€\u{FFFD}".as_bytes());
/// ```
#[doc(alias = "transcode")]
#[doc(alias = "encode")]
#[must_use]
pub fn recode(from: Encoding, to: Encoding, bytes: &[u8]) -> Vec<u8> {
    granted(try_recode(from, to, bytes))
}

/// [`recode`], but returns an error if an allocation fails.
///
/// ```
/// use noddychest::{try_recode, Encoding};
/// assert_eq!(try_recode(Encoding::Utf8, Encoding::Utf16Be, b"a\xFF"), Ok(b"\0a\xFF\xFD".to_vec()));
/// ```
pub fn try_recode(from: Encoding, to: Encoding, bytes: &[u8]) -> Result<Vec<u8>, AllocError> {
    let mut out = Vec::new();
    append_recoded(from, to, bytes, &mut out)?;
    Ok(out)
}

/// Appends what the bytes are in another encoding.
pub(crate) fn append_recoded(from: Encoding, to: Encoding, bytes: &[u8], out: &mut Vec<u8>) -> Result<(), AllocError> {
    let mut recoder = cuts::Recoder::new(from.proved(), to.proved());
    recoder.feed(bytes, memory::Vec::of(out))?;
    recoder.finish(memory::Vec::of(out))?;
    Ok(())
}

/// What the bytes are in another encoding; each maximal subpart becomes one U+FFFD, as [`Recoder::lossy`] says it.
///
/// ```
/// use noddychest::{recode, recode_lossy, Encoding};
/// assert_eq!(recode_lossy(Encoding::Utf8, Encoding::Utf8, b"\xE2\x82A"), "\u{FFFD}A".as_bytes());
/// assert_eq!(recode(Encoding::Utf8, Encoding::Utf8, b"\xE2\x82A"), "\u{FFFD}\u{FFFD}A".as_bytes());
/// ```
#[must_use]
pub fn recode_lossy(from: Encoding, to: Encoding, bytes: &[u8]) -> Vec<u8> {
    all_recoded(Recoder::lossy(from, to), bytes)
}

/// What the bytes are in another encoding; each invalid byte becomes what a table has for it, as [`Recoder::repair`] says it.
///
/// ```
/// use noddychest::{recode_repaired, Encoding, Repair};
/// let made = recode_repaired(Encoding::Utf8, Encoding::Utf16Be, b"\xC3\xA9 \x80", Repair::WINDOWS_1252);
/// assert_eq!(made, b"\0\xE9\0 \x20\xAC");
/// ```
#[must_use]
pub fn recode_repaired(from: Encoding, to: Encoding, bytes: &[u8], repair: Repair) -> Vec<u8> {
    all_recoded(Recoder::repair(from, to, repair), bytes)
}

/// What the bytes are in another encoding, or the first of them that is invalid.
///
/// ```
/// use noddychest::{recode_strict, FaultKind, Encoding};
/// assert_eq!(recode_strict(Encoding::Utf8, Encoding::Utf16Be, b"ok"), Ok(b"\0o\0k".to_vec()));
/// let fault = recode_strict(Encoding::Utf8, Encoding::Utf16Be, b"ok\xFF").unwrap_err();
/// assert_eq!((fault.offset(), fault.kind()), (2, FaultKind::NonUtf8Byte));
/// ```
pub fn recode_strict(from: Encoding, to: Encoding, bytes: &[u8]) -> Result<Vec<u8>, Fault> {
    recode_by(Recoder::strict(from, to), bytes)
}

/// What all of the bytes become by a recoder that is not strict.
fn all_recoded(recoder: Recoder, bytes: &[u8]) -> Vec<u8> {
    recode_by(recoder, bytes).unwrap_or_else(|fault| unreachable!("{fault}: only a strict recoder stops"))
}

fn recode_by(mut recoder: Recoder, bytes: &[u8]) -> Result<Vec<u8>, Fault> {
    let mut out = Vec::new();
    refused(recoder.feed_to_vec(bytes, &mut out))?;
    refused(recoder.finish_to_vec(&mut out))?;
    Ok(out)
}

fn refused(did: Progress) -> Result<(), Fault> {
    match did.status {
        Status::Fault(fault) => Err(fault),
        _ => Ok(()),
    }
}

/// The text of the bytes; each invalid byte (of UTF-16 each unit) becomes one U+FFFD.
///
/// ```
/// use noddychest::{decode, Encoding};
/// assert_eq!(decode(Encoding::Utf16Le, b"\xAC\x20\x00\xDE"), "€\u{FFFD}");
/// ```
#[doc(alias = "decode_utf8")]
#[must_use]
pub fn decode(encoding: Encoding, bytes: &[u8]) -> String {
    memory::text_of(recode(encoding, Encoding::Utf8, bytes))
}

/// The text of the bytes; each maximal subpart becomes one U+FFFD. Of UTF-8 it is what [`String::from_utf8_lossy`] gives.
///
/// ```
/// use noddychest::{decode_lossy, Encoding};
/// assert_eq!(decode_lossy(Encoding::Utf8, b"\xF0\x9F\x98!"), String::from_utf8_lossy(b"\xF0\x9F\x98!"));
/// ```
#[doc(alias = "decode_utf8")]
#[doc(alias = "from_utf8_lossy")]
#[must_use]
pub fn decode_lossy(encoding: Encoding, bytes: &[u8]) -> String {
    memory::text_of(recode_lossy(encoding, Encoding::Utf8, bytes))
}

/// The text of the bytes; each invalid byte becomes what a table has for it, as [`Recoder::repair`] says it.
///
/// ```
/// use noddychest::{decode_repaired, Encoding, Repair};
/// assert_eq!(decode_repaired(Encoding::Utf8, b"caf\xC3\xA9, caf\xE9", Repair::WINDOWS_1252), "café, café");
/// ```
#[doc(alias = "decode_utf8")]
#[doc(alias = "windows-1252")]
#[must_use]
pub fn decode_repaired(encoding: Encoding, bytes: &[u8], repair: Repair) -> String {
    memory::text_of(recode_repaired(encoding, Encoding::Utf8, bytes, repair))
}

/// The text of the bytes, or the first of them that is invalid.
///
/// ```
/// use noddychest::{decode_strict, Encoding};
/// assert_eq!(decode_strict(Encoding::Utf16Be, b"\0o\0k").as_deref(), Ok("ok"));
/// assert_eq!(decode_strict(Encoding::Utf8, b"ok\xFF").unwrap_err().offset(), 2);
/// ```
#[doc(alias = "decode_utf8")]
pub fn decode_strict(encoding: Encoding, bytes: &[u8]) -> Result<String, Fault> {
    recode_strict(encoding, Encoding::Utf8, bytes).map(memory::text_of)
}

/// Into a buffer that grows.
impl Recoder {
    /// Feeds a part of the text, and appends the output. It is never [`Status::Full`], and reads the whole part, unless a strict
    /// recoder stops at a [`Status::Fault`].
    ///
    /// ```
    /// use noddychest::{Encoding, Recoder};
    /// let (mut recoder, mut out) = (Recoder::new(Encoding::Utf8, Encoding::Utf16Be), Vec::new());
    /// for part in [&b"caf\xC3"[..], b"\xA9\xFF"] {
    ///     assert_eq!(recoder.feed_to_vec(part, &mut out).read, part.len());
    /// }
    /// assert_eq!(recoder.finish_to_vec(&mut out).written, 0);
    /// assert_eq!(out, b"\0c\0a\0f\0\xE9\xFF\xFD");
    /// ```
    pub fn feed_to_vec(&mut self, part: &[u8], out: &mut Vec<u8>) -> Progress {
        append(out, part, |rest, buffer| self.feed(rest, buffer))
    }

    /// Appends what is held, when no more follows. It is never [`Status::Full`]. Of a strict recoder see [`finish`](Recoder::finish).
    ///
    /// ```
    /// use noddychest::{Encoding, Recoder};
    /// let (mut recoder, mut out) = (Recoder::new(Encoding::Utf8, Encoding::Utf8), Vec::new());
    /// assert_eq!(recoder.feed_to_vec(b"a\xC3", &mut out).written, 1);
    /// assert_eq!(recoder.finish_to_vec(&mut out).written, 3);
    /// assert_eq!(out, "a\u{FFFD}".as_bytes());
    /// ```
    pub fn finish_to_vec(&mut self, out: &mut Vec<u8>) -> Progress {
        append(out, &[], |_, buffer| self.finish(buffer))
    }

    /// [`feed_to_vec`](Recoder::feed_to_vec) into a string.
    ///
    /// # Panics
    ///
    /// If the recoder writes another encoding than UTF-8.
    ///
    /// ```
    /// use noddychest::{Encoding, Recoder};
    /// let (mut recoder, mut text) = (Recoder::lossy(Encoding::Utf8, Encoding::Utf8), String::from("> "));
    /// for part in [&b"caf\xC3"[..], b"\xA9\xE2\x82!"] {
    ///     assert_eq!(recoder.feed_to_string(part, &mut text).read, part.len());
    /// }
    /// assert_eq!(recoder.finish_to_string(&mut text).written, 0);
    /// assert_eq!(text, "> café\u{FFFD}!");
    /// ```
    pub fn feed_to_string(&mut self, part: &[u8], out: &mut String) -> Progress {
        self.expect_utf8();
        append_text(out, part, |rest, buffer| self.feed(rest, buffer))
    }

    /// [`finish_to_vec`](Recoder::finish_to_vec) into a string.
    ///
    /// # Panics
    ///
    /// If the recoder writes another encoding than UTF-8.
    ///
    /// ```
    /// use noddychest::{Encoding, Recoder};
    /// let (mut recoder, mut text) = (Recoder::new(Encoding::Utf16Le, Encoding::Utf8), String::new());
    /// assert_eq!(recoder.feed_to_string(b"a\0\x3D\xD8", &mut text).written, 1);
    /// assert_eq!(recoder.finish_to_string(&mut text).written, 3);
    /// assert_eq!(text, "a\u{FFFD}");
    /// ```
    pub fn finish_to_string(&mut self, out: &mut String) -> Progress {
        self.expect_utf8();
        append_text(out, &[], |_, buffer| self.finish(buffer))
    }

    fn expect_utf8(&self) {
        assert!(self.to() == Encoding::Utf8, "a string takes UTF-8, and this recoder writes {}", self.to());
    }
}

/// Appends what steps write, each of which is given the rest of a part.
fn append(out: &mut Vec<u8>, part: &[u8], mut step: impl FnMut(&[u8], &mut [u8]) -> Progress) -> Progress {
    let (begin, mut end, mut read) = (out.len(), out.len(), 0);
    loop {
        // (text of one encoding is about as long in another; if it is longer the vector grows)
        out.resize(end + (part.len() - read) + 16, 0);
        let did = step(&part[read..], &mut out[end..]);
        read += did.read;
        end += did.written;
        if did.status != Status::Full {
            out.truncate(end);
            return Progress { read, written: end - begin, status: did.status };
        }
    }
}

/// Appends the output to a string, by steps that write UTF-8.
fn append_text(out: &mut String, part: &[u8], mut step: impl FnMut(&[u8], &mut [u8]) -> Progress) -> Progress {
    let (mut buffer, begin, mut read) = ([0; BLOCK], out.len(), 0);
    loop {
        let did = step(&part[read..], &mut buffer);
        read += did.read;
        out.push_str(core::str::from_utf8(&buffer[..did.written]).expect("a recoder to UTF-8 writes whole characters"));
        if did.status != Status::Full {
            return Progress { read, written: out.len() - begin, status: did.status };
        }
    }
}
