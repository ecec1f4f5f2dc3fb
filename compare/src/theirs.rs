//! The results of the Rust crate, which is the judge.

use crate::numbers::Answers;
use encode_unicode as side;
use side::iterator::{Utf16CharDecoder, Utf8CharDecoder};
use side::SliceExt;

#[path = "answers/mod.rs"]
mod answers;

pub use answers::*;

/// The pieces of the bytes: offset, length, and scalar or error.
pub fn pieces(src: &[u8]) -> Answers {
    let mut to = Answers::default();
    Utf8CharDecoder::from(src).for_each(|(offset, answer, len)| to.put_item(offset, answer, len));
    to
}

/// The pieces of the units.
pub fn unit_pieces(src: &[u16]) -> Answers {
    let mut to = Answers::default();
    Utf16CharDecoder::from(src).for_each(|(offset, answer, len)| to.put_item(offset, answer, len));
    to
}

/// What the program `pieces` should write, and whether a piece is an error.
pub fn listing(src: &[u8]) -> (String, bool) {
    let mut lines = String::new();
    let mut faulty = false;
    for (offset, answer, len) in src.utf8char_indices() {
        let last = match answer {
            Ok(c) => format!("{:06x}", u32::from(c.to_char())),
            Err(error) => {
                faulty = true;
                format!("{:?}", error.kind())
            }
        };
        lines.push_str(&format!("{offset} {len} {last}\n"));
    }
    (lines, faulty)
}
