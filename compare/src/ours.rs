//! The results of this project, by its crate for Cargo.

use crate::inputs::FROM_BACK;
use crate::numbers::{Answers, ErrorNumber, FIRST_ERROR, NOTHING};
use noddychest::encode_unicode as side;
use noddychest::{FaultKind, Piece, PieceTable};
use side::iterator::Utf8CharDecoder;
use side::Utf8Char;

#[path = "answers/mod.rs"]
mod answers;

pub use answers::*;

/// The last character of the slice, and its decoder by the calls of the word.
///
/// For each call there are how many bytes `as_slice` has before it, and offset, length and scalar or error; or `NOTHING`.
pub fn ends(src: &[u8], word: &[u8]) -> Answers {
    let mut to = Answers::default();
    to.put_front("from_slice_end", Utf8Char::from_slice_end(src));
    let mut decoder = Utf8CharDecoder::from(src);
    for letter in word {
        to.put_size("as_slice().len()", decoder.as_slice().len());
        let item = match *letter {
            FROM_BACK => decoder.next_back(),
            _ => decoder.next(),
        };
        match item {
            Some((offset, answer, len)) => to.put_item(offset, answer, len),
            None => to.put("no item", NOTHING),
        }
    }
    to
}

/// The table of the bytes after each replacement, and whether a table made anew of them has the same pieces.
pub fn replacements(src: &[u8], replacements: &[[u8; 4]]) -> Answers {
    let mut to = Answers::default();
    let mut table = PieceTable::new(src);
    for [place, count, first, second] in replacements {
        let len = table.bytes().len();
        let start = usize::from(*place) % (len + 1);
        let end = len.min(start + usize::from(*count));
        let added = if *second == 0 { 1 } else { 2 };
        table.replace(start..end, &[*first, *second][..added]);
        to.put_size("bytes().len()", table.bytes().len());
        to.put_bool("a table made anew has the same pieces", table.pieces().eq(PieceTable::new(table.bytes()).pieces()));
        to.put_size("pieces().len()", table.pieces().len());
        for Piece { offset, len, result, .. } in table.pieces() {
            to.put_item(offset, result.map_err(|fault| fault.kind()), len);
        }
    }
    to
}

/// Kinds are numbered from 1, those of UTF-16 after those of UTF-8.
impl ErrorNumber for FaultKind {
    fn number(&self) -> u64 {
        let first = if self.is_of_utf16() { FaultKind::UnexpectedTrailingSurrogate } else { FaultKind::TooFewBytes };
        FIRST_ERROR + *self as u64 - first as u64
    }
}
