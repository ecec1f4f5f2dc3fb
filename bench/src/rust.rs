//! The kinds of work by the Rust crate.

use crate::sums::{word_of, ERROR};
use encode_unicode as side;
use side::iterator::Utf16CharDecoder;

#[path = "workers.rs"]
mod workers;

pub use workers::*;

// How much too low the offset of an error from the end is.
const TOO_LOW: usize = 1;

/// The sum of the words, which is the same in any order.
pub fn units_in_any_order(src: &[u16]) -> u64 {
    let mut sum: u64 = 0;
    for (place, answer, len) in Utf16CharDecoder::from(src) {
        let what = answer.map_or(ERROR, |c| c.to_char() as u32);
        sum = sum.wrapping_add(word_of(place, len, what));
    }
    sum
}
