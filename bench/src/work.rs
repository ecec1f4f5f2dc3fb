//! The kinds of work, each done by this project's crate for Cargo, by the Rust crate and, where they do the same work, by std
//! and by `bstr`.
//!
//! Every worker returns a checksum of all that it saw, added up in the same way, so that results can be compared.

use crate::inputs::Input;
use crate::sums::{word_of, Checksum, ERROR};
use crate::{by_bstr, collections, decoders, ends, mergers, ours, rust, texts};

/// Does one kind of work over an input and returns the checksum.
pub type Worker = fn(&Input) -> u64;

/// One kind of work and who does it.
pub struct Work {
    pub name: &'static str,
    pub ours: Worker,
    pub rust: Worker,
    pub std: Option<Worker>,
    /// How many bytes of the input it reads.
    pub bytes: fn(&Input) -> usize,
    /// Whether it takes only valid text.
    pub of_text: bool,
}

impl Work {
    /// Who does the work, each by the name of its side.
    pub fn sides(&self) -> impl Iterator<Item = (&'static str, Worker)> {
        let bstr = by_bstr::worker(self.name);
        let known = [("ours", Some(self.ours)), ("rust", Some(self.rust)), ("std", self.std), ("bstr", bstr)];
        known.into_iter().filter_map(|(side, worker)| Some((side, worker?)))
    }

    /// Whether the work takes the input.
    pub fn takes(&self, input: &Input) -> bool {
        input.is_text() || !self.of_text
    }
}

/// All kinds of work, in the order of the tables.
pub fn all() -> impl Iterator<Item = &'static Work> {
    let of_slices = OF_SLICES.iter().chain(&decoders::ALL).chain(&mergers::ALL).chain(&ends::ALL);
    of_slices.chain(&texts::ALL).chain(&collections::ALL)
}

// The works over slices, which take faulty ones too.
const OF_SLICES: [Work; 6] = [
    Work {
        name: "forward",
        ours: |input| ours::forward(&input.bytes),
        rust: |input| rust::forward(&input.bytes),
        std: Some(|input| std_forward(&input.bytes)),
        bytes: |input| input.bytes.len(),
        of_text: false,
    },
    Work {
        name: "starts",
        ours: |input| ours::starts(&input.bytes),
        rust: |input| rust::starts(&input.bytes),
        std: None,
        bytes: |input| input.bytes.len(),
        of_text: false,
    },
    Work {
        name: "units",
        ours: |input| ours::units(&input.units),
        rust: |input| rust::units(&input.units),
        std: Some(|input| std_units(&input.units)),
        bytes: |input| 2 * input.units.len(),
        of_text: false,
    },
    Work {
        name: "to_utf8",
        ours: |input| ours::to_utf8(&input.numbers),
        rust: |input| rust::to_utf8(&input.numbers),
        std: Some(|input| std_to_utf8(&input.numbers)),
        bytes: |input| 4 * input.numbers.len(),
        of_text: false,
    },
    Work {
        name: "to_utf16",
        ours: |input| ours::to_utf16(&input.numbers),
        rust: |input| rust::to_utf16(&input.numbers),
        std: Some(|input| std_to_utf16(&input.numbers)),
        bytes: |input| 4 * input.numbers.len(),
        of_text: false,
    },
    Work {
        name: "between",
        ours: |input| ours::between(&input.bytes),
        rust: |input| rust::between(&input.bytes),
        std: None,
        bytes: |input| input.bytes.len(),
        of_text: false,
    },
];

// On text the same checksum. Elsewhere std cuts otherwise and names no kinds; a byte of a faulty chunk counts as
// an error of its own.
fn std_forward(src: &[u8]) -> u64 {
    let mut sum = Checksum::default();
    let mut start = 0;
    for chunk in src.utf8_chunks() {
        for (place, c) in chunk.valid().char_indices() {
            sum.add(word_of(start + place, c.len_utf8(), c as u32));
        }
        start += chunk.valid().len();
        for _ in chunk.invalid() {
            sum.add(word_of(start, 1, ERROR));
            start += 1;
        }
    }
    sum.value()
}

// On text the same checksum. Elsewhere std does not say which fault a unit has.
pub(crate) fn std_units(src: &[u16]) -> u64 {
    let mut sum = Checksum::default();
    let mut place = 0;
    for answer in char::decode_utf16(src.iter().copied()) {
        let (what, len) = match answer {
            Ok(c) => (c as u32, c.len_utf16()),
            Err(_) => (ERROR, 1),
        };
        sum.add(word_of(place, len, what));
        place += len;
    }
    sum.value()
}

fn std_to_utf8(src: &[u32]) -> u64 {
    let mut sum = Checksum::default();
    for number in src {
        if let Some(c) = char::from_u32(*number) {
            let mut code = [0; 4];
            let len = c.encode_utf8(&mut code).len();
            sum.add(word_of(len, 0, u32::from_le_bytes(code)));
        }
    }
    sum.value()
}

fn std_to_utf16(src: &[u32]) -> u64 {
    let mut sum = Checksum::default();
    for number in src {
        if let Some(c) = char::from_u32(*number) {
            let mut code = [0; 2];
            c.encode_utf16(&mut code);
            sum.add((code[1] as u64) << 16 | code[0] as u64);
        }
    }
    sum.value()
}
