//! The results of this project, by the library for C.

use crate::inputs::FROM_BACK;
use crate::numbers::{Answers, ErrorNumber, FIRST_ERROR, NOTHING};

#[repr(C)]
struct Bytes {
    bytes: *const u8,
    len: usize,
}

#[repr(C)]
struct Units {
    units: *const u16,
    len: usize,
}

#[repr(C)]
struct Piece {
    len: usize,
    scalar: u32,
    kind: u8,
}

// As `c/noddychest.h` declares them.
extern "C" {
    fn nody_utf8_next(left: *mut Bytes) -> Piece;
    fn nody_utf8_next_back(left: *mut Bytes) -> Piece;
    fn nody_utf16_next(left: *mut Units) -> Piece;
}

const OK: u8 = 0;
const FIRST_OF_UTF16: u8 = 8;
const NONE: u8 = 11;

/// A kind, by its number in the header.
struct Kind(u8);

impl ErrorNumber for Kind {
    fn number(&self) -> u64 {
        let first = if self.0 < FIRST_OF_UTF16 { 1 } else { FIRST_OF_UTF16 };
        FIRST_ERROR + u64::from(self.0 - first)
    }
}

impl Piece {
    fn answer(&self) -> Result<char, Kind> {
        match self.kind {
            OK => Ok(char::from_u32(self.scalar).expect("a character is a scalar value")),
            kind => Err(Kind(kind)),
        }
    }
}

/// The pieces of the bytes: offset, length, and scalar or error.
pub fn pieces(src: &[u8]) -> Answers {
    let mut left = Bytes { bytes: src.as_ptr(), len: src.len() };
    // The cursor is over a slice that outlives it.
    all(|| unsafe { nody_utf8_next(&mut left) })
}

/// The pieces of the units.
pub fn units(src: &[u16]) -> Answers {
    let mut left = Units { units: src.as_ptr(), len: src.len() };
    all(|| unsafe { nody_utf16_next(&mut left) })
}

fn all(mut next: impl FnMut() -> Piece) -> Answers {
    let (mut to, mut offset) = (Answers::default(), 0);
    loop {
        let piece = next();
        if piece.kind == NONE {
            return to;
        }
        to.put_item(offset, piece.answer(), piece.len);
        offset += piece.len;
    }
}

/// The pieces of the bytes by the calls of the word: offset, length, and scalar or error; or `NOTHING`.
pub fn ends(src: &[u8], word: &[u8]) -> Answers {
    let (mut to, mut front) = (Answers::default(), 0);
    let mut left = Bytes { bytes: src.as_ptr(), len: src.len() };
    for letter in word {
        let is_back = *letter == FROM_BACK;
        let piece = unsafe { if is_back { nody_utf8_next_back(&mut left) } else { nody_utf8_next(&mut left) } };
        if piece.kind == NONE {
            to.put("no item", NOTHING);
            continue;
        }
        let offset = if is_back { front + left.len } else { front };
        to.put_item(offset, piece.answer(), piece.len);
        front += if is_back { 0 } else { piece.len };
    }
    to
}
