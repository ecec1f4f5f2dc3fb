//! The works over both ends of a slice of bytes, by the Rust crate and, on text, by std.
//!
//! The Rust crate panics where only continuation bytes are left, so such bytes at the front of an input are
//! passed over, and the offset that it gives of an error from the end is one too low, so that one is added.

use crate::inputs::Input;
use crate::sums::{word_of, Checksum};
use crate::work::Work;
use crate::{ours, rust};

/// The works over both ends, in the order of the tables.
pub const ALL: [Work; 3] = [
    Work {
        name: "backward",
        ours: |input| ours::backward(bytes_of(input)),
        rust: |input| rust::backward(bytes_of(input)),
        std: None,
        bytes: |input| bytes_of(input).len(),
        of_text: false,
    },
    Work {
        name: "ends",
        ours: |input| ours::ends(bytes_of(input)),
        rust: |input| rust::ends(bytes_of(input)),
        std: None,
        bytes: |input| bytes_of(input).len(),
        of_text: false,
    },
    Work {
        name: "text_backward",
        ours: |input| ours::backward(bytes_of(input)),
        rust: |input| rust::backward(bytes_of(input)),
        std: Some(|input| std_backward(input.text())),
        bytes: |input| bytes_of(input).len(),
        of_text: true,
    },
];

// The input without the continuation bytes that it begins with.
fn bytes_of(input: &Input) -> &[u8] {
    let first = input.bytes.iter().position(|byte| byte & 0xc0 != 0x80);
    &input.bytes[first.unwrap_or(input.bytes.len())..]
}

fn std_backward(text: &str) -> u64 {
    let mut sum = Checksum::default();
    for (place, c) in text.char_indices().rev() {
        sum.add(word_of(place, c.len_utf8(), c as u32));
    }
    sum.value()
}
