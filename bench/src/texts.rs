//! The works over the iterators of a text, by the Rust crate and by std.

use crate::inputs::Input;
use crate::sums::{placed, scalar, sum_of};
use crate::work::Work;
use crate::{ours, rust};

/// The works over a text, in the order of the tables.
pub const ALL: [Work; 9] = [
    Work {
        name: "bytes_next",
        ours: |input| ours::bytes_next(input.text()),
        rust: |input| rust::bytes_next(input.text()),
        std: None,
        bytes: text_len,
        of_text: true,
    },
    Work {
        name: "bytes_read",
        ours: |input| ours::bytes_read(input.text()),
        rust: |input| rust::bytes_read(input.text()),
        std: None,
        bytes: text_len,
        of_text: true,
    },
    Work {
        name: "units_next",
        ours: |input| ours::units_next(input.text()),
        rust: |input| rust::units_next(input.text()),
        std: Some(|input| sum_of(input.text().encode_utf16().map(u64::from))),
        bytes: text_len,
        of_text: true,
    },
    Work {
        name: "utf8chars",
        ours: |input| ours::utf8chars(input.text()),
        rust: |input| rust::utf8chars(input.text()),
        std: Some(|input| sum_of(input.text().chars().map(scalar))),
        bytes: text_len,
        of_text: true,
    },
    Work {
        name: "utf8chars_back",
        ours: |input| ours::utf8chars_back(input.text()),
        rust: |input| rust::utf8chars_back(input.text()),
        std: Some(|input| sum_of(input.text().chars().rev().map(scalar))),
        bytes: text_len,
        of_text: true,
    },
    Work {
        name: "indices",
        ours: |input| ours::indices(input.text()),
        rust: |input| rust::indices(input.text()),
        std: Some(|input| sum_of(input.text().char_indices().map(|(place, c)| placed(place, c)))),
        bytes: text_len,
        of_text: true,
    },
    Work {
        name: "indices_back",
        ours: |input| ours::indices_back(input.text()),
        rust: |input| rust::indices_back(input.text()),
        std: Some(|input| sum_of(input.text().char_indices().rev().map(|(place, c)| placed(place, c)))),
        bytes: text_len,
        of_text: true,
    },
    Work {
        name: "utf16chars",
        ours: |input| ours::utf16chars(input.text()),
        rust: |input| rust::utf16chars(input.text()),
        std: Some(|input| sum_of(input.text().chars().map(scalar))),
        bytes: text_len,
        of_text: true,
    },
    Work {
        name: "utf16chars_back",
        ours: |input| ours::utf16chars_back(input.text()),
        rust: |input| rust::utf16chars_back(input.text()),
        std: Some(|input| sum_of(input.text().chars().rev().map(scalar))),
        bytes: text_len,
        of_text: true,
    },
];

fn text_len(input: &Input) -> usize {
    input.text().len()
}
