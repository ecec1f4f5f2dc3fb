//! The works that `bstr` does too. It gives one U+FFFD for a maximal subpart, and no kind of error: so its results
//! are compared only on text.

use crate::inputs::Input;
use crate::sums::{word_of, Checksum, ERROR};
use crate::work::Worker;
use bstr::ByteSlice;

/// Who does the work of that name.
pub fn worker(work: &str) -> Option<Worker> {
    match work {
        "forward" => Some(|input: &Input| checksum(input.bytes.char_indices())),
        "backward" => Some(|input: &Input| checksum(input.bytes.char_indices().rev())),
        "starts" => Some(|input: &Input| starts(&input.bytes)),
        _ => None,
    }
}

fn checksum(items: impl Iterator<Item = (usize, usize, char)>) -> u64 {
    let mut sum = Checksum::default();
    for (start, end, c) in items {
        sum.add(word_of(start, end - start, c as u32));
    }
    sum.value()
}

fn starts(src: &[u8]) -> u64 {
    let mut sum = Checksum::default();
    let mut place = 0;
    while place < src.len() {
        let (c, len) = bstr::decode_utf8(&src[place..]);
        sum.add(word_of(place, len, c.map_or(ERROR, u32::from)));
        place += len;
    }
    sum.value()
}
