//! Inputs: damaged text, by a generator that gives the same on each run; and what std and the table of errors say of them.
#![allow(dead_code)]

pub mod repairs;

use noddychest::{Encoding, FaultKind};

/// Steps of splitmix64.
pub struct Chance(pub u64);

impl Chance {
    pub fn next(&mut self) -> u64 {
        self.0 = self.0.wrapping_add(0x9E37_79B9_7F4A_7C15);
        let mut z = self.0;
        z = (z ^ (z >> 30)).wrapping_mul(0xBF58_476D_1CE4_E5B9);
        z = (z ^ (z >> 27)).wrapping_mul(0x94D0_49BB_1331_11EB);
        z ^ (z >> 31)
    }

    /// A number below `end`.
    pub fn below(&mut self, end: usize) -> usize {
        (self.next() % end as u64) as usize
    }

    pub fn char(&mut self) -> char {
        let most = [0x80, 0x800, 0x1_0000, 0x11_0000][self.below(4)];
        char::from_u32(self.below(most) as u32).unwrap_or('\u{FFFF}')
    }

    /// At most `most` bytes and three: characters, parts of them, bytes near the bounds of the ranges, and any bytes.
    pub fn bytes(&mut self, most: usize) -> Vec<u8> {
        const BOUNDS: [u8; 20] = [
            0x00, 0x41, 0x7F, 0x80, 0x8F, 0x90, 0x9F, 0xA0, 0xBF, 0xC0, 0xC1, 0xC2, 0xDF, 0xE0, 0xED, 0xEF, 0xF0, 0xF4, 0xF5,
            0xFF,
        ];
        let (len, mut out) = (self.below(most + 1), Vec::new());
        while out.len() < len {
            let mut room = [0; 4];
            let code = self.char().encode_utf8(&mut room).as_bytes().to_vec();
            match self.below(8) {
                0 => out.extend(&code[..self.below(code.len())]),
                1 => out.extend(&code[self.below(code.len())..]),
                2 | 3 => out.push(BOUNDS[self.below(BOUNDS.len())]),
                4 => out.push(self.next() as u8),
                _ => out.extend(code),
            }
        }
        out
    }

    pub fn units(&mut self, most: usize) -> Vec<u16> {
        let (len, mut out) = (self.below(most + 1), Vec::new());
        while out.len() < len {
            match self.below(6) {
                0 => out.push(0xD800 + self.below(0x400) as u16),
                1 => out.push(0xDC00 + self.below(0x400) as u16),
                2 => out.push([0, 0x7F, 0xD7FF, 0xD800, 0xDBFF, 0xDC00, 0xDFFF, 0xE000, 0xFFFF][self.below(9)]),
                3 => out.push(self.next() as u16),
                _ => out.extend_from_slice(self.char().encode_utf16(&mut [0; 2])),
            }
        }
        out
    }
}

/// The lines of a file of vectors of the repository; none outside of it, as in the package.
pub fn rows(name: &str) -> Vec<Vec<String>> {
    let path = format!("{}/../crates/conformance/data/{name}", env!("CARGO_MANIFEST_DIR"));
    let Ok(text) = std::fs::read_to_string(&path) else {
        eprintln!("left out: {path} is not there");
        return Vec::new();
    };
    let lines = text.lines().filter(|it| !it.starts_with('#'));
    lines.map(|it| it.split('|').map(str::to_string).collect()).collect()
}

pub fn of_hex(text: &str) -> Vec<u8> {
    let digits: Vec<u32> = text.chars().map(|c| c.to_digit(16).expect("a digit")).collect();
    digits.chunks(2).map(|pair| (pair[0] * 16 + pair[1]) as u8).collect()
}

/// How an error at the end of UTF-8 is named: as in a slice, or as by a reader of one byte at a time, who first sees the byte that breaks it.
#[derive(Clone, Copy, PartialEq)]
pub enum End {
    OfSlice,
    OfParts,
}

/// A piece, by what std says of the bytes and by the table of errors: its offset, its length, and the character or the kind.
pub type Told = (usize, usize, Result<char, FaultKind>);

/// The kind of the invalid byte that begins these bytes.
fn kind_of(bytes: &[u8], end: End) -> FaultKind {
    let needed = match bytes[0] {
        0x80..=0xBF => return FaultKind::UnexpectedContinuationByte,
        0xC2..=0xDF => 2,
        0xE0..=0xEF => 3,
        0xF0..=0xF4 => 4,
        _ => return FaultKind::NonUtf8Byte,
    };
    let here = &bytes[1..needed.min(bytes.len())];
    let is_broken = here.iter().any(|it| !(0x80..0xC0).contains(it));
    if bytes.len() < needed && (end == End::OfSlice || !is_broken) {
        return FaultKind::TooFewBytes;
    }
    match (is_broken, bytes[0]) {
        (true, _) => FaultKind::InterruptedSequence,
        (_, 0xE0 | 0xF0) => FaultKind::OverlongEncoding,
        (_, 0xED) => FaultKind::Utf16ReservedCodepoint,
        _ => FaultKind::TooHighCodepoint,
    }
}

pub fn of_utf8(bytes: &[u8], end: End) -> Vec<Told> {
    let (mut out, mut offset) = (Vec::new(), 0);
    for chunk in bytes.utf8_chunks() {
        for c in chunk.valid().chars() {
            out.push((offset, c.len_utf8(), Ok(c)));
            offset += c.len_utf8();
        }
        for _ in chunk.invalid() {
            out.push((offset, 1, Err(kind_of(&bytes[offset..], end))));
            offset += 1;
        }
    }
    out
}

pub fn of_units(units: &[u16]) -> Vec<Told> {
    let (mut out, mut offset) = (Vec::new(), 0);
    for answer in char::decode_utf16(units.iter().copied()) {
        let answer = answer.map_err(|error| match error.unpaired_surrogate() {
            0xDC00.. => FaultKind::UnexpectedTrailingSurrogate,
            _ if offset + 1 == units.len() => FaultKind::Incomplete,
            _ => FaultKind::UnmatchedLeadingSurrogate,
        });
        let len = answer.map_or(1, char::len_utf16);
        out.push((offset, len, answer));
        offset += len;
    }
    out
}

/// The pieces of bytes in any encoding; offsets and lengths count bytes.
pub fn of_encoding(encoding: Encoding, bytes: &[u8], end: End) -> Vec<Told> {
    let unit = match encoding {
        Encoding::Utf8 => return of_utf8(bytes, end),
        Encoding::Utf16Le => u16::from_le_bytes,
        _ => u16::from_be_bytes,
    };
    let units: Vec<u16> = bytes.chunks_exact(2).map(|it| unit([it[0], it[1]])).collect();
    let mut out: Vec<Told> = of_units(&units).into_iter().map(|it| (2 * it.0, 2 * it.1, it.2)).collect();
    if bytes.len() % 2 == 1 {
        out.push((bytes.len() - 1, 1, Err(FaultKind::Incomplete)));
    }
    out
}

/// Damaged text of an encoding: at most about `most` bytes of UTF-8, or units.
pub fn text_of(encoding: Encoding, chance: &mut Chance, most: usize) -> Vec<u8> {
    let mut out = match encoding {
        Encoding::Utf8 => chance.bytes(most),
        Encoding::Utf16Le => chance.units(most).into_iter().flat_map(u16::to_le_bytes).collect(),
        Encoding::Utf16Be => chance.units(most).into_iter().flat_map(u16::to_be_bytes).collect(),
        _ => unreachable!("{encoding} is new"),
    };
    if chance.below(4) == 0 {
        out.pop();
    }
    out
}

pub fn encoded(encoding: Encoding, text: impl Iterator<Item = char>) -> Vec<u8> {
    let text: String = text.collect();
    match encoding {
        Encoding::Utf8 => text.into_bytes(),
        Encoding::Utf16Le => text.encode_utf16().flat_map(u16::to_le_bytes).collect(),
        Encoding::Utf16Be => text.encode_utf16().flat_map(u16::to_be_bytes).collect(),
        _ => unreachable!("{encoding} is new"),
    }
}

/// Long stretches of text, of one kind of character each, with a little damage between them.
pub fn long_text_of(encoding: Encoding, chance: &mut Chance, len: usize) -> Vec<u8> {
    let mut out = Vec::new();
    while out.len() < len {
        let stretch = chance.below(300);
        match chance.below(3) {
            0 => out.extend(encoded(encoding, (0..stretch).map(|k| char::from(b' ' + (k % 90) as u8)))),
            _ => {
                let text: String = (0..stretch / 3).map(|_| chance.char()).collect();
                out.extend(encoded(encoding, text.chars()));
            }
        }
        let most = chance.below(5);
        out.extend(text_of(encoding, chance, most));
    }
    out
}
