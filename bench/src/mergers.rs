//! The works of the mergers, by the Rust crate and by std.

use crate::sums::{Checksum, ERROR};
use crate::work::Work;
use crate::{ours, rust};

/// The works of mergers, in the order of the tables.
pub const ALL: [Work; 2] = [
    Work {
        name: "merger",
        ours: |input| ours::merger(&input.bytes),
        rust: |input| rust::merger(&input.bytes),
        std: None,
        bytes: |input| input.bytes.len(),
        of_text: false,
    },
    Work {
        name: "unit_merger",
        ours: |input| ours::unit_merger(&input.units),
        rust: |input| rust::unit_merger(&input.units),
        std: Some(|input| std_unit_merger(&input.units)),
        bytes: |input| 2 * input.units.len(),
        of_text: false,
    },
];

// std has one error, so its results are equal only on text.
fn std_unit_merger(src: &[u16]) -> u64 {
    let mut sum = Checksum::default();
    for answer in char::decode_utf16(src.iter().copied()) {
        let what = answer.map_or(ERROR, |c| c as u32);
        sum.add(u64::from(what));
    }
    sum.value()
}
