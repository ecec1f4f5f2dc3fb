//! The iterators over texts and over the codes of characters, compared.

use crate::inputs::{self, Random};
use crate::tally::Kind;
use crate::{ours, theirs};

/// Each text by the iterators over its characters, from both ends.
pub fn walks(seed: u64, count: usize) -> Vec<Kind> {
    let random = &mut Random::new(seed);
    let texts = inputs::edge_texts(3);
    let few = inputs::edge_texts(2);
    vec![
        walk_kind(
            "texts of up to three edge characters, words of five",
            beside(&texts, &inputs::words(5)),
        ),
        walk_kind(
            "texts of up to two edge characters, words of eight",
            beside(&few, &inputs::words(8)),
        ),
        walk_kind(
            "texts of up to 16 characters, random words",
            (0..count.div_ceil(3)).map(|_| (inputs::text(random), inputs::word(random))),
        ),
    ]
}

// Each text with each word.
fn beside<'a>(
    texts: &'a [String],
    words: &'a [Vec<u8>],
) -> impl Iterator<Item = (String, Vec<u8>)> + 'a {
    texts
        .iter()
        .flat_map(|text| words.iter().map(move |word| (text.clone(), word.clone())))
}

pub(crate) fn walk_kind(name: &'static str, walks: impl Iterator<Item = (String, Vec<u8>)>) -> Kind {
    let mut kind = Kind::new(name);
    for (text, word) in walks {
        let input = || format!("{text:?} by {}", String::from_utf8_lossy(&word));
        kind.compare(input, &ours::walks(&text, &word), &theirs::walks(&text, &word));
    }
    kind
}

/// Every character by the iterators over its codes: by `next` alone, and by random calls.
pub fn codes(seed: u64) -> Kind {
    let random = &mut Random::new(seed);
    let mut kind = Kind::new("characters, by the iterators over their codes");
    for c in '\0'..=char::MAX {
        let steps = inputs::steps(random, 6);
        kind.compare(|| format!("{c:?} by {steps:?}"), &ours::codes_of_char(c, &steps), &theirs::codes_of_char(c, &steps));
    }
    kind
}

/// Each text by the iterators over the codes of its characters, by random calls.
pub fn splitters(seed: u64, count: usize) -> Vec<Kind> {
    let random = &mut Random::new(seed);
    let mut edges = Kind::new("texts of up to three edge characters, split");
    for text in inputs::edge_texts(3) {
        for _ in 0..8 {
            compare_split(&mut edges, random, &text);
        }
    }
    let mut texts = Kind::new("texts of up to 16 characters, split");
    for _ in 0..count.div_ceil(3) {
        let text = inputs::text(random);
        compare_split(&mut texts, random, &text);
    }
    vec![edges, texts]
}

// By up to 20 steps, and by up to 19 calls for units, so that many a text is left in its middle.
fn compare_split(kind: &mut Kind, random: &mut Random, text: &str) {
    let step_count = random.below(21);
    let steps = inputs::steps(random, step_count);
    let calls = random.below(20);
    compare_steps(kind, text, &steps, calls);
}

// By these steps, and by `calls` calls for units.
pub(crate) fn compare_steps(kind: &mut Kind, text: &str, steps: &[u8], calls: usize) {
    let input = || format!("{text:?} by {steps:?} and {calls} calls");
    kind.compare(input, &ours::codes_of_text(text, steps, calls), &theirs::codes_of_text(text, steps, calls));
}
