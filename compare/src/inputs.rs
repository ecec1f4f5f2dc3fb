//! What is compared: edges, everything small, and seeded random inputs.

/// The bytes at the ends of every class of bytes.
pub const EDGE_BYTES: [u8; 25] = [
    0x00, 0x41, 0x7f, 0x80, 0x8f, 0x90, 0x9f, 0xa0, 0xbf, 0xc0, 0xc1, 0xc2, 0xdf, 0xe0, 0xe1, 0xec,
    0xed, 0xee, 0xef, 0xf0, 0xf1, 0xf3, 0xf4, 0xf5, 0xff,
];

/// The units at the ends of every class of units, and some between.
pub const EDGE_UNITS: [u16; 20] = [
    0x0000, 0x0041, 0x007f, 0x0080, 0x00ff, 0x0100, 0x07ff, 0x0800, 0xd7ff, 0xd800, 0xd801, 0xda00,
    0xdbff, 0xdc00, 0xdc01, 0xde00, 0xdfff, 0xe000, 0xfffe, 0xffff,
];

/// The characters at the ends of every length and of the ASCII letters.
pub const EDGE_CHARS: [char; 28] = [
    '\0',
    '\u{1}',
    '@',
    'A',
    'Z',
    '[',
    '`',
    'a',
    'z',
    '{',
    '\u{7f}',
    '\u{80}',
    '\u{c1}',
    '\u{e1}',
    '\u{ff}',
    '\u{100}',
    '\u{7ff}',
    '\u{800}',
    '\u{fff}',
    '\u{d7ff}',
    '\u{e000}',
    '\u{ffff}',
    '\u{10000}',
    '\u{10041}',
    '\u{3ffff}',
    '\u{40000}',
    '\u{10fc00}',
    '\u{10ffff}',
];

/// Numbers from a seed: SplitMix64.
pub struct Random(u64);

impl Random {
    pub fn new(seed: u64) -> Random {
        Random(seed)
    }

    pub fn next(&mut self) -> u64 {
        self.0 = self.0.wrapping_add(0x9e37_79b9_7f4a_7c15);
        let mut mixed = self.0;
        mixed = (mixed ^ (mixed >> 30)).wrapping_mul(0xbf58_476d_1ce4_e5b9);
        mixed = (mixed ^ (mixed >> 27)).wrapping_mul(0x94d0_49bb_1331_11eb);
        mixed ^ (mixed >> 31)
    }

    /// A number below `end`, which is above 0.
    pub fn below(&mut self, end: usize) -> usize {
        (self.next() % end as u64) as usize
    }

    pub fn one_of<T: Copy>(&mut self, items: &[T]) -> T {
        items[self.below(items.len())]
    }

    pub fn byte(&mut self) -> u8 {
        self.next() as u8
    }

    pub fn unit(&mut self) -> u16 {
        self.next() as u16
    }

    /// A scalar, of each length as likely as of another.
    pub fn char(&mut self) -> char {
        let end = self.one_of(&[0x80, 0x800, 0x1_0000, 0x11_0000]);
        let number = self.below(end) as u32;
        char::from_u32(number).unwrap_or_else(|| self.one_of(&EDGE_CHARS))
    }
}

/// All lists of up to three edge bytes.
pub fn short_lists() -> Vec<Vec<u8>> {
    let mut lists: Vec<Vec<u8>> = vec![Vec::new()];
    let mut from = 0;
    for _ in 0..3 {
        let until = lists.len();
        let longer: Vec<_> = lists[from..]
            .iter()
            .flat_map(|list| extended(list))
            .collect();
        lists.extend(longer);
        from = until;
    }
    lists
}

// The list with each of the edge bytes after it.
fn extended(list: &[u8]) -> impl Iterator<Item = Vec<u8>> + '_ {
    EDGE_BYTES.iter().map(move |byte| [list, &[*byte]].concat())
}

/// 4 to 40 random bytes.
pub fn random_list(random: &mut Random) -> Vec<u8> {
    (0..4 + random.below(37)).map(|_| random.byte()).collect()
}

/// 4 to 40 random edge bytes.
pub fn random_edges(random: &mut Random) -> Vec<u8> {
    (0..4 + random.below(37))
        .map(|_| random.one_of(&EDGE_BYTES))
        .collect()
}

/// A text of 4 to 16 characters with one to three of its bytes changed, dropped or doubled.
pub fn damaged_text(random: &mut Random) -> Vec<u8> {
    let text: String = (0..4 + random.below(13)).map(|_| random.char()).collect();
    let mut bytes = text.into_bytes();
    for _ in 0..1 + random.below(3) {
        damage(random, &mut bytes);
    }
    bytes
}

/// A text of up to 400 characters, in runs whose codes have one length, with up to three of its bytes changed, dropped or
/// doubled.
pub fn long_text(random: &mut Random) -> Vec<u8> {
    let mut text = String::from("text");
    for _ in 0..random.below(9) {
        let end = random.one_of(&[0x80, 0x800, 0x1_0000, 0x11_0000]);
        let one = |random: &mut Random| char::from_u32(random.below(end) as u32).unwrap_or('\u{d7ff}');
        text.extend((0..random.below(50)).map(|_| one(random)));
    }
    let mut bytes = text.into_bytes();
    for _ in 0..random.below(4) {
        damage(random, &mut bytes);
    }
    bytes
}

// A text of four characters has more bytes than are dropped.
fn damage(random: &mut Random, bytes: &mut Vec<u8>) {
    let place = random.below(bytes.len());
    match random.below(4) {
        0 => bytes[place] = random.byte(),
        1 => bytes[place] = random.one_of(&EDGE_BYTES),
        2 => {
            bytes.remove(place);
        }
        _ => bytes.insert(place, bytes[place]),
    }
}

/// A text of up to three characters.
pub fn short_text(random: &mut Random) -> Vec<u8> {
    let text: String = (0..random.below(4)).map(|_| random.char()).collect();
    text.into_bytes()
}

/// Every number up to 0x110000, and some of those above.
pub fn numbers(random: &mut Random) -> Vec<u32> {
    let planes = (0x11..=0xffff).map(|plane| plane << 16);
    let powers = (21..32).flat_map(|bits| [(1 << bits) - 1, 1 << bits, (1 << bits) + 1]);
    let mut numbers: Vec<u32> = (0..=0x11_0000).chain(planes).chain(powers).collect();
    numbers.extend([0x11_0001, 0x11_ffff, u32::MAX - 1, u32::MAX]);
    numbers.extend((0..10_000).map(|_| random.next() as u32 | 0x20_0000));
    numbers
}

/// All pairs of edge units, every unit with each of them on either side, and random pairs.
pub fn unit_pairs(random: &mut Random) -> Vec<(u16, u16)> {
    let sides = |unit: u16| {
        EDGE_UNITS
            .into_iter()
            .flat_map(move |edge| [(unit, edge), (edge, unit)])
    };
    let mut pairs: Vec<_> = (0..=u16::MAX).flat_map(sides).collect();
    pairs.extend((0..100_000).map(|_| (random.unit(), random.unit())));
    pairs
}

/// All arrays of four edge bytes, and random ones.
pub fn arrays(random: &mut Random) -> Vec<[u8; 4]> {
    let mut arrays: Vec<_> = (0..EDGE_BYTES.len().pow(4)).map(edge_array).collect();
    arrays.extend((0..100_000).map(|_| [(); 4].map(|()| random.byte())));
    arrays
}

// The array of that number, whose digits are the places of its bytes.
fn edge_array(number: usize) -> [u8; 4] {
    let base = EDGE_BYTES.len();
    [0, 1, 2, 3].map(|digit| EDGE_BYTES[number / base.pow(digit) % base])
}

/// All pairs of edge characters, all pairs of ASCII, and random pairs.
pub fn char_pairs(random: &mut Random) -> Vec<(char, char)> {
    let with_edges = |one: char| EDGE_CHARS.into_iter().map(move |other| (one, other));
    let ascii = |one: u8| (0..128u8).map(move |other| (char::from(one), char::from(other)));
    let mut pairs: Vec<_> = EDGE_CHARS.into_iter().flat_map(with_edges).collect();
    pairs.extend((0..128).flat_map(ascii));
    pairs.extend((0..100_000).map(|_| (random.char(), random.char())));
    pairs
}

/// All texts of up to `most` edge characters.
pub fn edge_texts(most: u32) -> Vec<String> {
    (0..=most)
        .flat_map(|len| (0..EDGE_CHARS.len().pow(len)).map(move |number| edge_text(number, len)))
        .collect()
}

// The text of that number, whose digits are the places of its characters.
fn edge_text(number: usize, len: u32) -> String {
    let base = EDGE_CHARS.len();
    (0..len)
        .map(|digit| EDGE_CHARS[number / base.pow(digit) % base])
        .collect()
}

/// The letter of a word that calls `next_back`.
pub const FROM_BACK: u8 = b'B';

/// All words of `len` letters, each of them a call from the front or from the end.
pub fn words(len: u32) -> Vec<Vec<u8>> {
    (0..1 << len)
        .map(|number: u32| (0..len).map(|bit| letter((number >> bit) & 1)).collect())
        .collect()
}

fn letter(bit: u32) -> u8 {
    [b'F', FROM_BACK][bit as usize]
}

/// Up to 16 characters, edges and others.
pub fn text(random: &mut Random) -> String {
    (0..random.below(17))
        .map(|_| match random.below(2) {
            0 => random.one_of(&EDGE_CHARS),
            _ => random.char(),
        })
        .collect()
}

/// 1 to 20 random letters.
pub fn word(random: &mut Random) -> Vec<u8> {
    (0..1 + random.below(20))
        .map(|_| letter(random.below(2) as u32))
        .collect()
}

/// The most places of a read that a step asks for.
pub const MOST_PLACES: usize = 9;

// The step that calls `next`.
pub const NEXT: u8 = MOST_PLACES as u8 + 1;

/// Six calls of `next`: a code has at most four bytes.
pub const NEXTS: [u8; 6] = [NEXT; 6];

/// So many steps: half of them calls of `next`, and half reads of 0 to 9 places.
pub fn steps(random: &mut Random, count: usize) -> Vec<u8> {
    (0..count)
        .map(|_| match random.below(2) {
            0 => NEXT,
            _ => random.below(MOST_PLACES + 1) as u8,
        })
        .collect()
}
