//! Times of the crate compared with encode_unicode 1.0.0, std, simdutf8 if it is installed, and the assembly, over 256 KiB of
//! each text: the best of many runs, turn by turn.
//!
//! It prints a line for each work and text, of which rust/eraser/speeds makes a table.

use noddychest::{pieces, Decoder, Encoding, Piece, Status};
use std::hint::black_box;
use std::time::Instant;

const LEN: usize = 256 * 1024;
const RUNS: usize = 25;

extern "C" {
    fn nody_utf8_valid_up_to(bytes: *const u8, len: usize) -> usize;
    fn nody_utf16_valid_up_to(units: *const u16, len: usize) -> usize;
    fn nody_recode(from: u8, to: u8, bytes: *const u8, len: usize, out: *mut u8, room: usize, written: *mut usize) -> u8;
}

struct Text {
    name: &'static str,
    text: String,
    bytes: Vec<u8>,
    units: Vec<u16>,
    unit_bytes: Vec<u8>,
}

/// Words of characters from these ranges, by steps of xorshift64; `damaged` breaks a byte in a hundred.
fn text(name: &'static str, ranges: &[(u32, u32)], is_damaged: bool) -> Text {
    let (mut x, mut text) = (0x9E37_79B9_7F4A_7C15_u64, String::new());
    let mut step = || {
        x ^= x << 13;
        x ^= x >> 7;
        x ^= x << 17;
        x
    };
    while text.len() < LEN {
        let (first, last) = ranges[step() as usize % ranges.len()];
        for _ in 0..1 + step() % 12 {
            text.push(char::from_u32(first + (step() % u64::from(last - first)) as u32).unwrap());
        }
        text.push(' ');
    }
    let (mut bytes, mut units) = (text.clone().into_bytes(), text.encode_utf16().collect::<Vec<u16>>());
    if is_damaged {
        for k in (0..bytes.len()).step_by(100) {
            bytes[k] = 0x80 + (step() % 0x80) as u8;
        }
        for k in (0..units.len()).step_by(100) {
            units[k] = 0xD800 + (step() % 0x800) as u16;
        }
    }
    let unit_bytes = units.iter().flat_map(|unit| unit.to_le_bytes()).collect();
    Text { name, text, bytes, units, unit_bytes }
}

fn texts() -> [Text; 6] {
    const ASCII: (u32, u32) = (0x61, 0x7B);
    const RUSSIAN: (u32, u32) = (0x430, 0x450);
    const CHINESE: (u32, u32) = (0x4E00, 0x5E00);
    const EMOJI: (u32, u32) = (0x1F600, 0x1F640);
    [
        text("mix", &[ASCII, RUSSIAN, CHINESE, EMOJI], false),
        text("ascii", &[ASCII], false),
        text("russian", &[RUSSIAN], false),
        text("chinese", &[CHINESE], false),
        text("emoji", &[EMOJI], false),
        text("damaged", &[ASCII, RUSSIAN, CHINESE, EMOJI], true),
    ]
}

fn seconds(work: &mut dyn FnMut(&Text) -> u64, text: &Text) -> (f64, u64) {
    let begun = Instant::now();
    let sum = black_box(work(black_box(text)));
    (begun.elapsed().as_secs_f64(), sum)
}

/// A line for each text: the best time of ours and of another, in nanoseconds for each byte.
fn beside(name: &str, peer: &str, texts: &[Text], mut ours: impl FnMut(&Text) -> u64, mut theirs: impl FnMut(&Text) -> u64) {
    for text in texts {
        let (mut a, mut b) = (f64::MAX, f64::MAX);
        for _ in 0..RUNS {
            let ((one, sum), (other, same)) = (seconds(&mut ours, text), seconds(&mut theirs, text));
            assert_eq!(sum, same, "{name} beside {peer} on {}", text.name);
            (a, b) = (a.min(one), b.min(other));
        }
        let each = |time: f64| time * 1e9 / text.bytes.len() as f64;
        println!("{name}|{peer}|{}|{}|{}", text.name, each(a), each(b));
    }
}

macro_rules! works {
    ($of:ident) => {
        mod $of {
            use super::Text;
            use $of::{IterExt, SliceExt, StrExt};

            fn add(sum: u64, at: usize, len: usize, c: char) -> u64 {
                sum.wrapping_add((at as u64) << 32).wrapping_add((u64::from(c)) << 3).wrapping_add(len as u64)
            }
            pub fn forward(t: &Text) -> u64 {
                t.bytes.utf8char_indices().fold(0, |sum, (at, r, len)| add(sum, at, len, r.map_or('\0', |c| c.to_char())))
            }
            pub fn backward(t: &Text) -> u64 {
                t.text.as_bytes().utf8char_indices().rev().fold(0, |sum, (at, r, len)| add(sum, at, len, r.map_or('\0', |c| c.to_char())))
            }
            pub fn merger(t: &Text) -> u64 {
                t.bytes.iter().to_utf8chars().fold(0, |sum, r| add(sum, 0, 1, r.map_or('\0', |c| c.to_char())))
            }
            pub fn units(t: &Text) -> u64 {
                t.units.utf16char_indices().fold(0, |sum, (at, r, len)| add(sum, at, len, r.map_or('\0', |c| c.to_char())))
            }
            pub fn unit_merger(t: &Text) -> u64 {
                t.units.iter().to_utf16chars().fold(0, |sum, r| add(sum, 0, 1, r.map_or('\0', |c| c.to_char())))
            }
            pub fn utf8chars(t: &Text) -> u64 {
                StrExt::utf8char_indices(&*t.text).fold(0, |sum, (at, c)| add(sum, at, c.len(), c.to_char()))
            }
            pub fn utf8chars_back(t: &Text) -> u64 {
                StrExt::utf8char_indices(&*t.text).rev().fold(0, |sum, (at, c)| add(sum, at, c.len(), c.to_char()))
            }
            pub fn utf16chars(t: &Text) -> u64 {
                StrExt::utf16char_indices(&*t.text).fold(0, |sum, (at, c)| add(sum, at, c.len(), c.to_char()))
            }
            pub fn to_bytes(t: &Text) -> u64 {
                t.text.utf8chars().to_bytes().fold(0, |sum, byte| sum.wrapping_mul(31).wrapping_add(u64::from(byte)))
            }
            pub fn to_units(t: &Text) -> u64 {
                t.text.utf16chars().to_units().fold(0, |sum, unit| sum.wrapping_mul(31).wrapping_add(u64::from(unit)))
            }
            pub fn collect_bytes(t: &Text) -> u64 {
                let bytes: Vec<u8> = t.text.utf8chars().collect();
                bytes.len() as u64 + u64::from(bytes[bytes.len() / 2])
            }
            pub fn collect_units(t: &Text) -> u64 {
                let units: Vec<u16> = t.text.utf16chars().collect();
                units.len() as u64 + u64::from(units[units.len() / 2])
            }
        }
    };
}
works!(theirs);
works!(encode_unicode);

/// A sum of pieces, which depends on their order.
fn seen(sum: u64, offset: u64, c: Option<char>) -> u64 {
    sum.wrapping_mul(3).wrapping_add(offset).wrapping_add(c.map_or(0, u64::from))
}

/// What a decoder gives for parts of 4 KiB, with room for 256 pieces.
fn in_parts(bytes: &[u8], are_all: bool) -> u64 {
    let (mut decoder, mut room, mut sum) = (Decoder::new(Encoding::Utf8), [Piece::default(); 256], 0);
    let feed = if are_all { Decoder::feed } else { Decoder::feed_faults };
    for part in bytes.chunks(4096) {
        let mut rest = part;
        loop {
            let did = feed(&mut decoder, rest, &mut room);
            sum = room[..did.written].iter().fold(sum, |sum, it| seen(sum, it.offset, it.char()));
            rest = &rest[did.read..];
            if did.status == Status::Done {
                break;
            }
        }
    }
    let written = decoder.finish(&mut room).written;
    room[..written].iter().fold(sum, |sum, it| seen(sum, it.offset, it.char()))
}

/// A decoder of parts compared with an iterator over the whole.
fn parts(texts: &[Text]) {
    let all = |t: &Text| pieces(&t.bytes).fold(0, |sum, it| seen(sum, it.offset as u64, it.char()));
    beside("Decoder::feed", "pieces of the whole", texts, |t| in_parts(&t.bytes, true), all);
    let faults = |t: &Text| noddychest::faults(&t.bytes).fold(0, |sum, it| seen(sum, it.offset() as u64, None));
    beside("Decoder::feed_faults", "faults of the whole", texts, |t| in_parts(&t.bytes, false), faults);
}

fn validation(texts: &[Text]) {
    let valid = |t: &Text| noddychest::valid_up_to(&t.bytes) as u64;
    beside("valid_up_to", "std", texts, valid, |t| std::str::from_utf8(&t.bytes).map_or_else(|e| e.valid_up_to(), str::len) as u64);
    // SAFETY: the pointers are valid for the lengths.
    beside("valid_up_to", "the assembly", texts, valid, |t| unsafe { nody_utf8_valid_up_to(t.bytes.as_ptr(), t.bytes.len()) } as u64);
    #[cfg(feature = "simdutf8")]
    beside("valid_up_to", "simdutf8", texts, valid, |t| simdutf8::compat::from_utf8(&t.bytes).map_or_else(|e| e.valid_up_to(), str::len) as u64);
    let units = |t: &Text| noddychest::units::valid_up_to(&t.units) as u64;
    // SAFETY: as above.
    beside("units::valid_up_to", "the assembly", texts, units, |t| unsafe { nody_utf16_valid_up_to(t.units.as_ptr(), t.units.len()) } as u64);
}

fn recoding(texts: &[Text], name: &str, (from, to): (u8, u8)) {
    let (mut one, mut other) = (vec![0; 4 * LEN], vec![0; 4 * LEN]);
    let encoding = |number| if number == 0 { Encoding::Utf8 } else { Encoding::Utf16Le };
    let bytes: fn(&Text) -> &[u8] = if from == 0 { |t| &t.bytes } else { |t| &t.unit_bytes };
    let ours = |t: &Text| noddychest::Recoder::new(encoding(from), encoding(to)).feed(bytes(t), &mut one).written as u64;
    beside(name, "the assembly", texts, ours, |t| {
        let mut written = 0;
        // SAFETY: the pointers are valid for the lengths.
        unsafe { nody_recode(from, to, bytes(t).as_ptr(), bytes(t).len(), other.as_mut_ptr(), other.len(), &mut written) };
        written as u64
    });
}

fn main() {
    let texts = texts();
    macro_rules! each {
        ($($name:ident),*) => { $( beside(stringify!($name), "encode_unicode", &texts, encode_unicode::$name, theirs::$name); )* };
    }
    each!(forward, backward, merger, units, unit_merger, utf8chars, utf8chars_back, utf16chars, to_bytes, to_units, collect_bytes, collect_units);
    parts(&texts);
    validation(&texts);
    recoding(&texts, "utf8 to utf16le", (0, 1));
    recoding(&texts, "utf16le to utf8", (1, 0));
}
