//! What is wrong with a byte or a unit.

use crate::proved::cuts;
use crate::proved::encode_unicode::error::{Utf16PairError, Utf8ErrorKind};
use core::fmt;
use core::ops::{Add, Range};

/// Why a byte, or a unit of UTF-16, is invalid.
///
/// The first seven are of UTF-8 and the last three of UTF-16. If two would be right, the lead byte itself decides
/// first, then whether enough bytes are left, then whether they are continuation bytes, and last the value. So `E0 80 41` is an
/// interrupted sequence and not an overlong encoding.
///
/// ```
/// use noddychest::{first, FaultKind};
///
/// let kind = |bytes| first(bytes).and_then(|piece| piece.fault()).map(|fault| fault.kind());
/// assert_eq!(kind(b"\xE2\x82"), Some(FaultKind::TooFewBytes));
/// assert_eq!(kind(b"\xC0\xAF"), Some(FaultKind::NonUtf8Byte));
/// assert_eq!(kind(b"\x82"), Some(FaultKind::UnexpectedContinuationByte));
/// assert_eq!(kind(b"\xE0\x80A"), Some(FaultKind::InterruptedSequence));
/// assert_eq!(kind(b"\xE0\x80\xAF"), Some(FaultKind::OverlongEncoding));
/// assert_eq!(kind(b"\xED\xA0\x80"), Some(FaultKind::Utf16ReservedCodepoint));
/// assert_eq!(kind(b"\xF4\x90\x80\x80"), Some(FaultKind::TooHighCodepoint));
/// ```
///
/// More may come, so a `match` needs an arm `_`. This does not compile:
///
/// ```compile_fail,E0004
/// use noddychest::FaultKind::{self, *};
/// let is_of_utf8 = |kind: FaultKind| match kind {
///     TooFewBytes | NonUtf8Byte | UnexpectedContinuationByte | InterruptedSequence => true,
///     OverlongEncoding | Utf16ReservedCodepoint | TooHighCodepoint => true,
///     UnexpectedTrailingSurrogate | UnmatchedLeadingSurrogate | Incomplete => false,
/// };
/// ```
#[derive(Clone, Copy, Debug, PartialEq, Eq, PartialOrd, Ord, Hash)]
#[doc(alias = "error")]
#[non_exhaustive]
#[repr(u8)]
pub enum FaultKind {
    /// Fewer bytes are left than the first one needs.
    TooFewBytes = 1,
    /// A byte that never occurs in UTF-8: `C0`, `C1`, or `F5` to `FF`.
    NonUtf8Byte = 2,
    /// A continuation byte, `80` to `BF`, where a character should begin.
    UnexpectedContinuationByte = 3,
    /// After this byte a continuation byte should follow, and another byte does.
    InterruptedSequence = 4,
    /// The sequence is longer than its value needs.
    OverlongEncoding = 5,
    /// The value is a surrogate, U+D800 to U+DFFF, which only UTF-16 uses.
    Utf16ReservedCodepoint = 6,
    /// The value is above U+10FFFF.
    TooHighCodepoint = 7,
    /// Of UTF-16: a trailing surrogate where a character should begin.
    UnexpectedTrailingSurrogate = 8,
    /// Of UTF-16: a leading surrogate after which no trailing one follows.
    UnmatchedLeadingSurrogate = 9,
    /// Of UTF-16: the text ends after a leading surrogate, or in the middle of a unit.
    Incomplete = 10,
}

impl FaultKind {
    /// All kinds, in the order of their numbers. More may come, so it is a slice.
    ///
    /// ```
    /// use noddychest::FaultKind;
    /// let all: &[FaultKind] = FaultKind::ALL;
    /// assert!(all.contains(&FaultKind::OverlongEncoding));
    /// ```
    pub const ALL: &'static [FaultKind] = &[
        FaultKind::TooFewBytes,
        FaultKind::NonUtf8Byte,
        FaultKind::UnexpectedContinuationByte,
        FaultKind::InterruptedSequence,
        FaultKind::OverlongEncoding,
        FaultKind::Utf16ReservedCodepoint,
        FaultKind::TooHighCodepoint,
        FaultKind::UnexpectedTrailingSurrogate,
        FaultKind::UnmatchedLeadingSurrogate,
        FaultKind::Incomplete,
    ];

    /// Whether it is one of the three kinds of UTF-16.
    ///
    /// ```
    /// use noddychest::FaultKind;
    /// assert!(FaultKind::Incomplete.is_of_utf16() && !FaultKind::TooFewBytes.is_of_utf16());
    /// ```
    #[must_use]
    pub fn is_of_utf16(self) -> bool {
        use FaultKind::{Incomplete, UnexpectedTrailingSurrogate, UnmatchedLeadingSurrogate};
        matches!(self, UnexpectedTrailingSurrogate | UnmatchedLeadingSurrogate | Incomplete)
    }

    /// The name, as the programs and the library for C write it.
    ///
    /// ```
    /// assert_eq!(noddychest::FaultKind::TooFewBytes.name(), "TooFewBytes");
    /// ```
    #[must_use]
    pub fn name(self) -> &'static str {
        match self {
            FaultKind::TooFewBytes => "TooFewBytes",
            FaultKind::NonUtf8Byte => "NonUtf8Byte",
            FaultKind::UnexpectedContinuationByte => "UnexpectedContinuationByte",
            FaultKind::InterruptedSequence => "InterruptedSequence",
            FaultKind::OverlongEncoding => "OverlongEncoding",
            FaultKind::Utf16ReservedCodepoint => "Utf16ReservedCodepoint",
            FaultKind::TooHighCodepoint => "TooHighCodepoint",
            FaultKind::UnexpectedTrailingSurrogate => "UnexpectedTrailingSurrogate",
            FaultKind::UnmatchedLeadingSurrogate => "UnmatchedLeadingSurrogate",
            FaultKind::Incomplete => "Incomplete",
        }
    }

    /// A sentence about it, as the programs and the library for C write it.
    ///
    /// ```
    /// use noddychest::FaultKind;
    /// assert_eq!(FaultKind::TooHighCodepoint.sentence(), "too high: the value is above 10FFFF");
    /// ```
    #[must_use]
    pub fn sentence(self) -> &'static str {
        match self {
            FaultKind::TooFewBytes => "too few bytes: the input ends inside a character",
            FaultKind::NonUtf8Byte => "invalid byte: C0, C1 and F5 to FF never occur in UTF-8",
            FaultKind::UnexpectedContinuationByte => "unexpected continuation byte: no character begins with it",
            FaultKind::InterruptedSequence => "interrupted sequence: a continuation byte is missing",
            FaultKind::OverlongEncoding => "overlong encoding: the value has a shorter code",
            FaultKind::Utf16ReservedCodepoint => "surrogate: the value is one of D800 to DFFF",
            FaultKind::TooHighCodepoint => "too high: the value is above 10FFFF",
            FaultKind::UnexpectedTrailingSurrogate => "unexpected trailing surrogate: no leading one stands before it",
            FaultKind::UnmatchedLeadingSurrogate => "unmatched leading surrogate: no trailing one follows it",
            FaultKind::Incomplete => "incomplete: the input ends inside a character of UTF-16",
        }
    }
}

impl From<Utf8ErrorKind> for FaultKind {
    fn from(kind: Utf8ErrorKind) -> FaultKind {
        match kind {
            Utf8ErrorKind::TooFewBytes => FaultKind::TooFewBytes,
            Utf8ErrorKind::NonUtf8Byte => FaultKind::NonUtf8Byte,
            Utf8ErrorKind::UnexpectedContinuationByte => FaultKind::UnexpectedContinuationByte,
            Utf8ErrorKind::InterruptedSequence => FaultKind::InterruptedSequence,
            Utf8ErrorKind::OverlongEncoding => FaultKind::OverlongEncoding,
            Utf8ErrorKind::Utf16ReservedCodepoint => FaultKind::Utf16ReservedCodepoint,
            Utf8ErrorKind::TooHighCodepoint => FaultKind::TooHighCodepoint,
        }
    }
}

impl From<Utf16PairError> for FaultKind {
    fn from(error: Utf16PairError) -> FaultKind {
        match error {
            Utf16PairError::UnexpectedTrailingSurrogate => FaultKind::UnexpectedTrailingSurrogate,
            Utf16PairError::UnmatchedLeadingSurrogate => FaultKind::UnmatchedLeadingSurrogate,
            Utf16PairError::Incomplete => FaultKind::Incomplete,
        }
    }
}

impl From<cuts::FaultKind> for FaultKind {
    fn from(kind: cuts::FaultKind) -> FaultKind {
        match kind {
            cuts::FaultKind::Utf8(kind) => kind.into(),
            cuts::FaultKind::Utf16(error) => error.into(),
        }
    }
}

/// Writes the name.
impl fmt::Display for FaultKind {
    fn fmt(&self, f: &mut fmt::Formatter<'_>) -> fmt::Result {
        f.pad(self.name())
    }
}

/// An invalid byte, or unit of UTF-16: where it is, and why it is invalid.
///
/// It is an [`Error`](core::error::Error), so a function that returns a `Result` passes it on by `?`, and `collect` stops at the
/// first one:
///
/// ```
/// use noddychest::{pieces, Fault};
///
/// fn text(bytes: &[u8]) -> Result<String, Fault> {
///     pieces(bytes).map(|piece| piece.result).collect()
/// }
///
/// assert_eq!(text("né".as_bytes()).as_deref(), Ok("né"));
/// let fault = text(b"caf\xE9 noir").unwrap_err();
/// assert_eq!(fault.to_string(), "invalid UTF-8 at offset 3: InterruptedSequence");
/// ```
///
/// `O` is what the offset is counted in, as for a [`Piece`](crate::Piece). Faults are ordered by offset.
#[derive(Clone, Copy, Debug, PartialEq, Eq, PartialOrd, Ord, Hash)]
#[doc(alias = "error")]
#[non_exhaustive]
pub struct Fault<O = usize> {
    offset: O,
    len: u8,
    kind: FaultKind,
}

impl<O: Copy> Fault<O> {
    /// A fault at an offset, of `len` bytes or units: if a part of a text is decoded, the fault in the whole.
    ///
    /// ```
    /// use noddychest::{faults, Fault};
    ///
    /// let (header, body) = (&b"a: b\n"[..], &b"caf\xE9"[..]);
    /// let fault = faults(body).next().unwrap();
    /// let moved = Fault::new(header.len() as u64 + fault.offset() as u64, 1, fault.kind());
    /// assert_eq!((moved.range(), moved.kind()), (8..9, fault.kind()));
    /// ```
    #[must_use]
    pub const fn new(offset: O, len: u8, kind: FaultKind) -> Fault<O> {
        Fault { offset, len, kind }
    }

    /// Why it is invalid.
    ///
    /// ```
    /// use noddychest::{first, FaultKind};
    /// let fault = first(b"\xFF").unwrap().result.unwrap_err();
    /// assert_eq!(fault.kind(), FaultKind::NonUtf8Byte);
    /// ```
    #[must_use]
    pub fn kind(&self) -> FaultKind {
        self.kind
    }

    /// Where it begins: in bytes or in units, from the front of what was split, or of all that a recoder or a decoder was fed.
    ///
    /// ```
    /// let fault = noddychest::pieces(b"ab\xFF").find_map(|piece| piece.fault());
    /// assert_eq!(fault.unwrap().offset(), 2);
    /// ```
    #[must_use]
    pub fn offset(&self) -> O {
        self.offset
    }

    /// Its range: one byte, or one unit. If UTF-16 is read in bytes it has two, or one if half a unit ends the text.
    ///
    /// ```
    /// let bytes = b"ab\xFF";
    /// let fault = noddychest::pieces(bytes).find_map(|piece| piece.fault()).unwrap();
    /// assert_eq!(&bytes[fault.range()], b"\xFF");
    /// ```
    #[must_use]
    pub fn range(&self) -> Range<O>
    where
        O: Add<Output = O> + From<u8>,
    {
        self.offset..self.offset + O::from(self.len)
    }
}

/// Writes the offset and the kind, as `invalid UTF-8 at offset 2: NonUtf8Byte`.
impl<O: fmt::Display> fmt::Display for Fault<O> {
    fn fmt(&self, f: &mut fmt::Formatter<'_>) -> fmt::Result {
        let code = if self.kind.is_of_utf16() { "UTF-16" } else { "UTF-8" };
        write!(f, "invalid {code} at offset {}: {}", self.offset, self.kind)
    }
}

impl<O: fmt::Debug + fmt::Display> core::error::Error for Fault<O> {}

/// An error of the kind [`InvalidData`](std::io::ErrorKind::InvalidData), in which the fault is: `error.get_ref()` and
/// `error.downcast::<Fault>()` give it back.
///
/// ```
/// use noddychest::{recode_strict, Fault, Encoding};
/// use std::io;
///
/// fn converted(bytes: &[u8]) -> io::Result<Vec<u8>> {
///     Ok(recode_strict(Encoding::Utf8, Encoding::Utf16Le, bytes)?)
/// }
///
/// let error = converted(b"caf\xE9").unwrap_err();
/// assert_eq!(error.kind(), io::ErrorKind::InvalidData);
/// assert_eq!(error.to_string(), "invalid UTF-8 at offset 3: TooFewBytes");
/// let fault = error.get_ref().and_then(|it| it.downcast_ref::<Fault>()).unwrap();
/// assert_eq!(fault.offset(), 3);
/// ```
#[cfg(feature = "std")]
impl<O: fmt::Debug + fmt::Display + Send + Sync + 'static> From<Fault<O>> for std::io::Error {
    fn from(fault: Fault<O>) -> std::io::Error {
        std::io::Error::new(std::io::ErrorKind::InvalidData, fault)
    }
}
