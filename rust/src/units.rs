//! UTF-16: units of the machine's own byte order, split from either end.
//!
//! The calls are those of the crate's top, for `&[u16]`. UTF-16 in bytes, little-endian or big-endian, is for a
//! [`Decoder`](crate::Decoder) or a [`Recoder`](crate::Recoder).
//!
//! ```
//! let name = [0x66, 0xD83D, 0xDE00, 0xDE00];
//! let text: String = noddychest::units::pieces(&name).map(|piece| piece.result.unwrap_or('\u{FFFD}')).collect();
//! assert_eq!(text, "f😀\u{FFFD}");
//! ```

use crate::pieces::{Element, Found};
use crate::proved::cuts;
use crate::proved::encode_unicode::iterator::Utf16CharDecoder;
use crate::Piece;

/// All pieces of the units: characters, and single units that are invalid. Offsets and lengths count units.
///
/// ```
/// use noddychest::{units, FaultKind};
/// let fault = units::pieces(&[0xD83D, 0x41]).find_map(|piece| piece.fault()).unwrap();
/// assert_eq!((fault.offset(), fault.kind()), (0, FaultKind::UnmatchedLeadingSurrogate));
/// ```
#[doc(alias = "decode_utf16")]
pub fn pieces(units: &[u16]) -> Pieces<'_> {
    Pieces::from(units)
}

/// The piece at the front, or `None` if there are no units.
///
/// ```
/// let piece = noddychest::units::first(&[0xD83D, 0xDE00, 0x41]).unwrap();
/// assert_eq!((piece.len, piece.char()), (2, Some('😀')));
/// ```
#[must_use]
pub fn first(units: &[u16]) -> Option<Piece> {
    u16::first_of(units, 0)
}

/// The piece at the end, or `None` if there are no units. At most two units are looked at.
///
/// ```
/// let piece = noddychest::units::last(&[0x41, 0xD83D, 0xDE00]).unwrap();
/// assert_eq!((piece.offset, piece.char()), (1, Some('😀')));
/// ```
#[must_use]
pub fn last(units: &[u16]) -> Option<Piece> {
    u16::last_of(units, 0)
}

/// The offset of the first invalid unit, or the length where all is UTF-16.
///
/// ```
/// let units = [0x6F, 0x6B, 0xDE00];
/// let valid = noddychest::units::valid_up_to(&units);
/// assert_eq!(String::from_utf16(&units[..valid]).unwrap(), "ok");
/// ```
#[must_use]
pub fn valid_up_to(units: &[u16]) -> usize {
    cuts::units_valid_up_to(units)
}

/// Only the invalid units, each as [`pieces`] gives it from the front. Text between them is skipped about as fast as it is validated, from
/// either end.
///
/// ```
/// let faults = noddychest::units::faults(&[0x6F, 0xDE00, 0x6B, 0xD83D]);
/// assert_eq!(faults.map(|fault| fault.offset()).collect::<Vec<_>>(), [1, 3]);
/// ```
pub fn faults(units: &[u16]) -> Faults<'_> {
    Faults::from(units)
}

/// How many characters there are, with each invalid unit counted as one.
///
/// ```
/// assert_eq!(noddychest::units::char_count(&[0x41, 0xD83D, 0xDE00, 0xDE00]), 3);
/// ```
#[must_use]
pub fn char_count(units: &[u16]) -> usize {
    cuts::unit_char_count(units)
}

/// The offset in units of the piece with this number, counted from 0. `None` if there are no more pieces.
///
/// ```
/// assert_eq!(noddychest::units::offset_of(&[0x41, 0xD83D, 0xDE00, 0xDE00], 2), Some(3));
/// ```
#[must_use]
pub fn offset_of(units: &[u16], number: usize) -> Option<usize> {
    cuts::unit_offset_of(units, number)
}

/// How many pieces begin before this offset in units: if one begins at it, its number, counted from 0. All of them, if the
/// offset is the length or more.
///
/// ```
/// assert_eq!(noddychest::units::number_of(&[0x41, 0xD83D, 0xDE00, 0xDE00], 3), 2);
/// ```
#[must_use]
pub fn number_of(units: &[u16], offset: usize) -> usize {
    cuts::unit_number_of(units, offset)
}

/// The last boundary between two pieces that is at most `at`: `at` itself, or one unit before it if `at` is inside a character. If `at`
/// is the length or more, it is the length.
///
/// ```
/// assert_eq!(noddychest::units::boundary_before(&[0x41, 0xD83D, 0xDE00], 2), 1);
/// ```
#[must_use]
pub fn boundary_before(units: &[u16], at: usize) -> usize {
    cuts::unit_boundary_before(units, at)
}

/// The first boundary between two pieces that is at least `at`, or the length.
///
/// ```
/// assert_eq!(noddychest::units::boundary_after(&[0x41, 0xD83D, 0xDE00], 2), 3);
/// ```
#[must_use]
pub fn boundary_after(units: &[u16], at: usize) -> usize {
    cuts::unit_boundary_after(units, at)
}

/// The pieces of some units, from the front and from the end. [`pieces`] makes it.
///
/// ```
/// let mut pieces = noddychest::units::pieces(&[0x41, 0xD83D, 0xDE00]);
/// assert_eq!(pieces.next_back().and_then(|piece| piece.char()), Some('😀'));
/// assert_eq!(pieces.as_slice(), [0x41]);
/// assert_eq!(pieces.size_hint(), (1, Some(1)));
/// ```
pub type Pieces<'a> = crate::Pieces<'a, u16>;

/// The invalid units of some units, from the front and from the end. [`faults`] makes it.
///
/// ```
/// let mut faults = noddychest::units::faults(&[0x6F, 0xDE00, 0x6B]);
/// assert_eq!(faults.next().unwrap().to_string(), "invalid UTF-16 at offset 1: UnexpectedTrailingSurrogate");
/// assert_eq!(faults.next(), None);
/// ```
pub type Faults<'a> = crate::Faults<'a, u16>;

impl Element for u16 {
    const MOST: usize = 2;

    #[inline(always)]
    fn first_of(left: &[u16], offset: usize) -> Option<Piece> {
        let (_, result, len) = Utf16CharDecoder::from(left).next()?;
        Some(Piece::of(offset, len, result))
    }

    #[inline(always)]
    fn last_of(left: &[u16], offset: usize) -> Option<Piece> {
        let (at, result, len) = Utf16CharDecoder::from(left).next_back()?;
        Some(Piece::of(offset + at, len, result))
    }

    #[inline(always)]
    fn valid_up_to(left: &[u16]) -> usize {
        cuts::units_valid_up_to(left)
    }

    fn boundary_before(left: &[u16], at: usize) -> usize {
        cuts::unit_boundary_before(left, at)
    }

    fn faults_into(left: &[u16], offset: usize, found: &mut [Found]) -> cuts::Fed {
        cuts::unit_faults_into(left, offset as u64, found)
    }
}
