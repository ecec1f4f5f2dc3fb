//! Tables of pieces, of which a part is replaced again and again.

use crate::inputs::{self, Random, EDGE_BYTES};
use crate::numbers::Answers;
use crate::ours;
use crate::tally::Kind;
use encode_unicode::iterator::Utf8CharDecoder;

const REPLACEMENTS: usize = 10;

/// A place, how many bytes are replaced there, and the two bytes that take their place, the first alone where
/// the second is 0.
pub(crate) type Replacement = [u8; 4];

/// Damaged texts and random edge bytes, with ten replacements in each. The judge is what the Rust crate's
/// decoder gives of the bytes after each.
pub fn replacements(seed: u64, count: usize) -> Vec<Kind> {
    let random = &mut Random::new(seed);
    let mut kind = Kind::new("tables of damaged bytes, ten replacements in each");
    for number in 0..count.div_ceil(20) {
        let list = match number % 3 {
            0 => inputs::random_edges(random),
            _ => inputs::damaged_text(random),
        };
        let steps: Vec<Replacement> = (0..REPLACEMENTS).map(|_| replacement(random)).collect();
        compare(&mut kind, &list, &steps);
    }
    vec![kind]
}

// One list, and these replacements in it.
pub(crate) fn compare(kind: &mut Kind, list: &[u8], steps: &[Replacement]) {
    let input = || format!("{list:02x?} by {steps:02x?}");
    kind.compare(input, &ours::replacements(list, steps), &judged(list, steps));
}

// One that takes up to seven bytes away.
pub(crate) fn replacement(random: &mut Random) -> Replacement {
    let [first, second] = [random.one_of(&EDGE_BYTES), random.one_of(&EDGE_BYTES)];
    [random.byte(), random.below(8) as u8, first, second]
}

fn judged(list: &[u8], steps: &[Replacement]) -> Answers {
    let mut to = Answers::default();
    let mut bytes = list.to_vec();
    for [place, count, first, second] in steps {
        let start = usize::from(*place) % (bytes.len() + 1);
        let end = bytes.len().min(start + usize::from(*count));
        bytes.splice(start..end, [*first].into_iter().chain((*second > 0).then_some(*second)));
        let items: Vec<_> = Utf8CharDecoder::from(&bytes[..]).collect();
        to.put_size("bytes().len()", bytes.len());
        to.put_bool("a table made anew has the same pieces", true);
        to.put_size("pieces().len()", items.len());
        for (offset, answer, len) in items {
            to.put_item(offset, answer, len);
        }
    }
    to
}
