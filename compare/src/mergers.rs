//! The mergers, compared.

use crate::inputs::{self, Random, EDGE_BYTES};
use crate::tally::Kind;
use crate::{ours, theirs, unit_decoder};

/// Lists of bytes and of units, as the mergers cut them.
pub fn lists(seed: u64, count: usize) -> Vec<Kind> {
    let random = &mut Random::new(seed);
    vec![
        bytes_kind("mergers: lists of up to four edge bytes", edge_lists()),
        bytes_kind(
            "mergers: lists of 4 to 40 bytes",
            (0..count).map(|_| inputs::random_list(random)),
        ),
        bytes_kind(
            "mergers: lists of 4 to 40 edge bytes",
            (0..count).map(|_| inputs::random_edges(random)),
        ),
        bytes_kind(
            "mergers: texts, damaged",
            (0..count).map(|_| inputs::damaged_text(random)),
        ),
        units_kind(
            "mergers: lists of up to four edge units",
            unit_decoder::short_lists(),
        ),
        units_kind(
            "mergers: lists of 4 to 24 units",
            (0..count).map(|_| unit_decoder::random_list(random)),
        ),
        units_kind(
            "mergers: texts as units, damaged",
            (0..count).map(|_| unit_decoder::damaged_text(random)),
        ),
    ]
}

pub(crate) fn bytes_kind(name: &'static str, lists: impl IntoIterator<Item = Vec<u8>>) -> Kind {
    let mut kind = Kind::new(name);
    for list in lists {
        kind.compare(|| format!("{list:02x?}"), &ours::merged_bytes(&list), &theirs::merged_bytes(&list));
    }
    kind
}

pub(crate) fn units_kind(name: &'static str, lists: impl IntoIterator<Item = Vec<u16>>) -> Kind {
    let mut kind = Kind::new(name);
    for list in lists {
        kind.compare(|| format!("{list:04x?}"), &ours::merged_units(&list), &theirs::merged_units(&list));
    }
    kind
}

// All lists of up to four edge bytes.
fn edge_lists() -> impl Iterator<Item = Vec<u8>> {
    let edges = EDGE_BYTES.len();
    (0..=4).flat_map(move |len| {
        (0..edges.pow(len)).map(move |number| (0..len).map(|place| EDGE_BYTES[number / edges.pow(place) % edges]).collect())
    })
}
