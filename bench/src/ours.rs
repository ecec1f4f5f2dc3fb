//! The kinds of work by this project's crate for Cargo.

use crate::sums::{word_of, ERROR};
use noddychest::encode_unicode as side;
use side::iterator::Utf16CharDecoder;

#[path = "workers.rs"]
mod workers;

pub use workers::*;

// How much too low the offset of an error from the end is.
const TOO_LOW: usize = 0;

/// Every piece that the decoder of units gives, from the end. The sum does not depend on the order, and of an error it has only that
/// there is one: so it equals the forward sum, with which others are compared.
pub fn units_back(src: &[u16]) -> u64 {
    let mut sum: u64 = 0;
    for (place, answer, len) in Utf16CharDecoder::from(src).rev() {
        let what = answer.map_or(ERROR, |c| c.to_char() as u32);
        sum = sum.wrapping_add(word_of(place, len, what));
    }
    sum
}
