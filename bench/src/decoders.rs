//! The works of the decoder of units, by the Rust crate and by std.
//!
//! The Rust crate and std decode units only forward, so they are compared with `units_back` that way.

use crate::sums::{word_of, ERROR};
use crate::work::{std_units, Work};
use crate::{ours, rust};

/// The works of decoders, in the order of the tables.
pub const ALL: [Work; 2] = [
    Work {
        name: "unit_decoder",
        ours: |input| ours::unit_decoder(&input.units),
        rust: |input| rust::unit_decoder(&input.units),
        std: Some(|input| std_units(&input.units)),
        bytes: |input| 2 * input.units.len(),
        of_text: false,
    },
    Work {
        name: "units_back",
        ours: |input| ours::units_back(&input.units),
        rust: |input| rust::units_in_any_order(&input.units),
        std: Some(|input| std_units_in_any_order(&input.units)),
        bytes: |input| 2 * input.units.len(),
        of_text: false,
    },
];

fn std_units_in_any_order(src: &[u16]) -> u64 {
    let mut sum: u64 = 0;
    let mut place = 0;
    for answer in char::decode_utf16(src.iter().copied()) {
        let (what, len) = match answer {
            Ok(c) => (c as u32, c.len_utf16()),
            Err(_) => (ERROR, 1),
        };
        sum = sum.wrapping_add(word_of(place, len, what));
        place += len;
    }
    sum
}
