//! One input, asked of all that decodes: its bytes by every iterator, from both ends, and as units; where they are
//! a text, that text too. Its bytes are converted as well.

use crate::ends::{self, Slips};
use crate::inputs::{self, Random, FROM_BACK};
use crate::tables::{self, Replacement};
use crate::tally::Kind;
use crate::{collections, kinds, mergers, recoding, text_kinds, unit_decoder};

/// How many letters a word has at most.
const MOST_LETTERS: usize = 32;

/// How many replacements there are at most: what the two highest bits of a byte can say.
const MOST_REPLACEMENTS: usize = 3;

/// Some bytes, and what they are asked.
pub struct Input {
    bytes: Vec<u8>,
    /// The numbers of the steps of a splitter, and by their last bit the letters of a word.
    steps: Vec<u8>,
    replacements: Vec<Replacement>,
    /// The lengths of the parts, and the sizes of the rooms, in which the bytes are recoded.
    cuts: Vec<u8>,
}

impl Input {
    /// Any list is an input. Its first byte says how many steps there are, and how many replacements; these follow,
    /// and then the bytes. The steps are the cuts too.
    pub fn of(list: &[u8]) -> Input {
        let (first, rest) = list.split_first().unwrap_or((&0, &[]));
        let letters = usize::from(first & 0x3f).min(MOST_LETTERS);
        let (steps, rest) = rest.split_at(letters.min(rest.len()));
        let replacements = usize::from(first >> 6);
        let (replacements, bytes) = rest.split_at((4 * replacements).min(rest.len()));
        Input {
            bytes: bytes.to_vec(),
            steps: steps.iter().map(|step| step % (inputs::NEXT + 1)).collect(),
            cuts: steps.to_vec(),
            replacements: replacements.chunks_exact(4).map(|four| [four[0], four[1], four[2], four[3]]).collect(),
        }
    }

    /// A damaged text, or edge bytes, asked at random.
    pub fn random(random: &mut Random) -> Input {
        let bytes = match random.below(3) {
            0 => inputs::random_edges(random),
            1 => inputs::text(random).into_bytes(),
            _ => inputs::damaged_text(random),
        };
        let step_count = random.below(MOST_LETTERS + 1);
        let replacement_count = random.below(MOST_REPLACEMENTS + 1);
        Input {
            bytes,
            steps: inputs::steps(random, step_count),
            cuts: (0..step_count).map(|_| random.byte()).collect(),
            replacements: (0..replacement_count).map(|_| tables::replacement(random)).collect(),
        }
    }

    /// The first difference, if there is one.
    pub fn difference(&self) -> Option<String> {
        let Input { bytes, replacements, .. } = self;
        let units = self.units();
        let word = self.word();
        let mut all = vec![
            kinds::list_kind("the decoder", [bytes.clone()]),
            ends::walk_kind("the decoder from both ends", &mut Slips::default(), [(bytes.clone(), word)].into_iter()),
            mergers::bytes_kind("the merger", [bytes.clone()]),
            unit_decoder::kind_of("the decoder of units", [units.clone()]),
            mergers::units_kind("the merger of units", [units]),
        ];
        let mut table = Kind::new("the table of pieces");
        tables::compare(&mut table, bytes, replacements);
        all.push(table);
        all.push(self.recoded());
        if let Ok(text) = std::str::from_utf8(bytes) {
            all.extend(self.of_text(text));
        }
        all.iter().find_map(Kind::first)
    }

    /// The first difference of what the bytes are converted to, if there is one.
    pub fn recoding_difference(&self) -> Option<String> {
        self.recoded().first()
    }

    fn recoded(&self) -> Kind {
        let mut recoded = Kind::new("recoding");
        recoding::compare(&mut recoded, &self.bytes, &self.cuts);
        recoded
    }

    // What a text is asked besides.
    fn of_text(&self, text: &str) -> Vec<Kind> {
        let walks = text_kinds::walk_kind("the text from both ends", [(text.to_owned(), self.word())].into_iter());
        let mut split = Kind::new("the text, split");
        text_kinds::compare_steps(&mut split, text, &self.steps, self.steps.len());
        let mut collected = Kind::new("the text, collected");
        collections::compare(&mut collected, text, text);
        vec![walks, split, collected]
    }

    fn word(&self) -> Vec<u8> {
        self.steps.iter().map(|step| [b'F', FROM_BACK][usize::from(step % 2)]).collect()
    }

    // Each two bytes as a unit, the first of them its lower half.
    fn units(&self) -> Vec<u16> {
        self.bytes.chunks_exact(2).map(|two| u16::from_le_bytes([two[0], two[1]])).collect()
    }
}
