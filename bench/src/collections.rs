//! The works that collect the characters of a text or add them to what is there.

use crate::inputs::Input;
use crate::sums::{sum_of_string, sum_of_units};
use crate::work::Work;
use crate::{ours, rust};

/// The works over collections, in the order of the tables. Those whose names end in 16 take characters kept
/// in UTF-16.
pub const ALL: [Work; 8] = [
    Work {
        name: "collect_bytes",
        ours: |input| ours::collect_bytes(input.text()),
        rust: |input| rust::collect_bytes(input.text()),
        std: None,
        bytes: text_len,
        of_text: true,
    },
    Work {
        name: "collect_string",
        ours: |input| ours::collect_string(input.text()),
        rust: |input| rust::collect_string(input.text()),
        std: Some(|input| sum_of_string(input.text().chars().collect())),
        bytes: text_len,
        of_text: true,
    },
    Work {
        name: "extend_bytes",
        ours: |input| ours::extend_bytes(input.text()),
        rust: |input| rust::extend_bytes(input.text()),
        std: None,
        bytes: text_len,
        of_text: true,
    },
    Work {
        name: "extend_string",
        ours: |input| ours::extend_string(input.text()),
        rust: |input| rust::extend_string(input.text()),
        std: Some(|input| sum_of_string(extended(marked_string(input.text()), input.text().chars()))),
        bytes: text_len,
        of_text: true,
    },
    Work {
        name: "collect_units",
        ours: |input| ours::collect_units(input.text()),
        rust: |input| rust::collect_units(input.text()),
        std: Some(|input| sum_of_units(input.text().encode_utf16().collect())),
        bytes: text_len,
        of_text: true,
    },
    Work {
        name: "extend_units",
        ours: |input| ours::extend_units(input.text()),
        rust: |input| rust::extend_units(input.text()),
        std: Some(|input| sum_of_units(extended(marked_units(input.text()), input.text().encode_utf16()))),
        bytes: text_len,
        of_text: true,
    },
    Work {
        name: "collect_string16",
        ours: |input| ours::collect_string16(input.text()),
        rust: |input| rust::collect_string16(input.text()),
        std: Some(|input| sum_of_string(input.text().chars().collect())),
        bytes: text_len,
        of_text: true,
    },
    Work {
        name: "extend_string16",
        ours: |input| ours::extend_string16(input.text()),
        rust: |input| rust::extend_string16(input.text()),
        std: Some(|input| sum_of_string(extended(marked_string(input.text()), input.text().chars()))),
        bytes: text_len,
        of_text: true,
    },
];

fn text_len(input: &Input) -> usize {
    input.text().len()
}

// The character before those that are added.
const MARK: u8 = b'>';

pub fn marked_bytes(text: &str) -> Vec<u8> {
    let mut bytes = Vec::with_capacity(text.len() + 1);
    bytes.push(MARK);
    bytes
}

pub fn marked_units(text: &str) -> Vec<u16> {
    let mut units = Vec::with_capacity(text.len() + 1);
    units.push(u16::from(MARK));
    units
}

pub fn marked_string(text: &str) -> String {
    let mut string = String::with_capacity(text.len() + 1);
    string.push(char::from(MARK));
    string
}

#[inline(always)]
pub fn extended<C, T: Extend<C>>(mut to: T, characters: impl Iterator<Item = C>) -> T {
    to.extend(characters);
    to
}
