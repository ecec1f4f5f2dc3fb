//! The calls that collect and extend, compared.

use crate::inputs::{self, Random};
use crate::tally::Kind;
use crate::{ours, theirs};

/// Each text, collected and after another.
pub fn texts(seed: u64, count: usize) -> Vec<Kind> {
    let random = &mut Random::new(seed);
    let mut edges = Kind::new("texts of up to three edge characters, collected");
    for text in inputs::edge_texts(3) {
        for _ in 0..8 {
            compare(&mut edges, &text, &inputs::text(random));
        }
    }
    let mut texts = Kind::new("texts of up to 16 characters, collected");
    for _ in 0..count.div_ceil(3) {
        let text = inputs::text(random);
        compare(&mut texts, &text, &inputs::text(random));
    }
    vec![edges, texts]
}

pub(crate) fn compare(kind: &mut Kind, text: &str, before: &str) {
    let input = || format!("{text:?} after {before:?}");
    kind.compare(input, &ours::collections(text, before), &theirs::collections(text, before));
}
