//! The inputs of the kinds of work, made from a fixed seed: every run sees the same. Running text is in `passages`.

/// The names of the inputs, in the order of the tables.
pub const NAMES: [&str; 7] = [
    "ascii",
    "two-byte",
    "three-byte",
    "four-byte",
    "mix",
    "damaged",
    "random",
];

/// One input, in the forms that the kinds of work take.
pub struct Input {
    /// UTF-8, or what is left of it.
    pub bytes: Vec<u8>,
    /// UTF-16, or what is left of it.
    pub units: Vec<u16>,
    /// Scalars, and other numbers among them.
    pub numbers: Vec<u32>,
    /// The text, if all of it is valid.
    text: Option<String>,
}

impl Input {
    /// Whether nothing in it is faulty.
    pub fn is_text(&self) -> bool {
        self.text.is_some()
    }

    /// The text, or an empty one where something is faulty.
    pub fn text(&self) -> &str {
        self.text.as_deref().unwrap_or_default()
    }

    /// An input with faults, and no numbers.
    pub(crate) fn faulty(bytes: Vec<u8>, units: Vec<u16>) -> Input {
        Input { bytes, units, numbers: Vec::new(), text: None }
    }
}

/// The input of that name, with about `size` bytes of UTF-8, and of numbers as many as there are characters.
pub fn make(name: &str, size: usize) -> Option<Input> {
    let mut random = Random(0x5eed_0000_0000_0001);
    let input = match name {
        "ascii" => of_text(text(&mut random, size, |_| 0)),
        "two-byte" => of_text(text(&mut random, size, |_| 1)),
        "three-byte" => of_text(text(&mut random, size, |_| 2)),
        "four-byte" => of_text(text(&mut random, size, |_| 3)),
        "mix" => of_text(text(&mut random, size, |random| random.below(4))),
        "damaged" => {
            let mix = of_text(text(&mut random, size, |random| random.below(4)));
            damaged(&mut random, mix)
        }
        "random" => noise(&mut random, size),
        _ => return None,
    };
    Some(input)
}

// Words of 1 to 12 characters, each with a space after it. All characters of a word have the same encoded length:
// 1 more than what `class` returns for the word.
fn text(random: &mut Random, size: usize, class: impl Fn(&mut Random) -> u64) -> String {
    let mut text = String::with_capacity(size + 64);
    while text.len() < size {
        let class = class(random);
        for _ in 0..1 + random.below(12) {
            text.push(character(random, class));
        }
        if class == 0 {
            text.push(' ');
        } else {
            text.push(character(random, class));
        }
    }
    text
}

// A character whose code has one byte more than `class`.
fn character(random: &mut Random, class: u64) -> char {
    let (low, high) = [(0x21, 0x7f), (0x80, 0x800), (0x800, 0x1_0000), (0x1_0000, 0x11_0000)][class as usize];
    loop {
        let number = low + random.below(high - low);
        if let Some(c) = char::from_u32(number as u32) {
            return c;
        }
    }
}

pub(crate) fn of_text(text: String) -> Input {
    Input {
        bytes: text.as_bytes().to_vec(),
        units: text.encode_utf16().collect(),
        numbers: text.chars().map(u32::from).collect(),
        text: Some(text),
    }
}

// One in a hundred elements replaced by a random one.
fn damaged(random: &mut Random, mut input: Input) -> Input {
    for byte in &mut input.bytes {
        if random.below(100) == 0 {
            *byte = random.next() as u8;
        }
    }
    for unit in &mut input.units {
        if random.below(100) == 0 {
            *unit = 0xd800 + random.below(0x800) as u16;
        }
    }
    for number in &mut input.numbers {
        if random.below(100) == 0 {
            *number = random.next() as u32;
        }
    }
    input.text = None;
    input
}

// Random bytes. Half of the units are surrogates, and some of the numbers are no scalars.
fn noise(random: &mut Random, size: usize) -> Input {
    let unit = |random: &mut Random| match random.below(2) {
        0 => random.next() as u16,
        _ => 0xd800 + random.below(0x800) as u16,
    };
    Input {
        bytes: (0..size).map(|_| random.next() as u8).collect(),
        units: (0..size / 2).map(|_| unit(random)).collect(),
        numbers: (0..size / 4).map(|_| random.below(0x12_0000) as u32).collect(),
        text: None,
    }
}

// SplitMix64.
pub(crate) struct Random(pub(crate) u64);

impl Random {
    pub(crate) fn next(&mut self) -> u64 {
        self.0 = self.0.wrapping_add(0x9e37_79b9_7f4a_7c15);
        let mut z = self.0;
        z = (z ^ (z >> 30)).wrapping_mul(0xbf58_476d_1ce4_e5b9);
        z = (z ^ (z >> 27)).wrapping_mul(0x94d0_49bb_1331_11eb);
        z ^ (z >> 31)
    }

    // A number below `bound`.
    pub(crate) fn below(&mut self, bound: u64) -> u64 {
        ((self.next() >> 32) * bound) >> 32
    }
}
