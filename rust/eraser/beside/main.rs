//! Compares the drop-in with encode_unicode 1.0.0, on random inputs: each call of both, by numbers.
//!
//! usage: `beside SEED COUNT`; the last line is `N passed, M failed`, where N counts inputs.

use std::fmt::Write;

/// Steps of xorshift64.
struct Chance(u64);

impl Chance {
    fn next(&mut self) -> u64 {
        self.0 ^= self.0 << 13;
        self.0 ^= self.0 >> 7;
        self.0 ^= self.0 << 17;
        self.0
    }

    /// Bytes near the ends of ranges, and some that may be any.
    fn bytes(&mut self, out: &mut Vec<u8>) {
        out.clear();
        for _ in 0..self.next() % 13 {
            let x = self.next();
            out.push(if x & 15 == 0 { (x >> 8) as u8 } else { BYTES[(x >> 8) as usize % BYTES.len()] });
        }
    }

    fn units(&mut self, out: &mut Vec<u16>) {
        out.clear();
        for _ in 0..self.next() % 7 {
            let x = self.next();
            out.push(if x & 7 == 0 { (x >> 8) as u16 } else { UNITS[(x >> 8) as usize % UNITS.len()] });
        }
    }

    fn number(&mut self) -> u32 {
        let n = (self.next() % 0x12_0000) as u32;
        if n & 1 == 0 { n % 0x900 } else { n }
    }
}

const BYTES: [u8; 36] = [
    0x00, 0x41, 0x7f, 0x80, 0x80, 0x80, 0x82, 0x8f, 0x90, 0x92, 0x9f, 0xa0, 0xa2, 0xac, 0xb2, 0xbf, 0xbf, 0xbf, 0xc0, 0xc1, 0xc2,
    0xc3, 0xdf, 0xe0, 0xe1, 0xe2, 0xec, 0xed, 0xee, 0xef, 0xf0, 0xf1, 0xf3, 0xf4, 0xf5, 0xff,
];
const UNITS: [u16; 16] = [
    0, 0x41, 0x7f, 0x80, 0x7ff, 0x800, 0xd7ff, 0xd800, 0xd801, 0xdbff, 0xdc00, 0xdc01, 0xdfff, 0xe000, 0x20ac, 0xffff,
];

/// All results of a crate for an input.
macro_rules! answers {
    ($of:ident) => {
        mod $of {
            use super::Write;
            use $of::{error::Utf8Error, CharExt, IterExt, SliceExt, StrExt, U16UtfExt, U8UtfExt, Utf16Char, Utf8Char};

            fn of_bytes<C: Into<char>>(result: Result<C, Utf8Error>) -> u64 {
                result.map_or_else(|error| 1 << 32 | error.kind() as u64, |c| u64::from(c.into()))
            }

            macro_rules! of_units {
                ($result:expr) => {
                    match $result {
                        Ok(c) => u64::from(char::from(c)),
                        Err(error) => 1 << 32 | error as u64,
                    }
                };
            }

            fn decoders(b: &[u8], u: &[u16], put: &mut impl FnMut(u64)) {
                let mut decoder = b.utf8char_indices();
                while let Some((at, result, len)) = decoder.next() {
                    put(at as u64 | (len as u64) << 32);
                    put(of_bytes(result));
                    put(decoder.size_hint().0 as u64 | (decoder.as_slice().len() as u64) << 32);
                }
                let mut merger = b.iter().to_utf8chars();
                while let Some(result) = merger.next() {
                    put(of_bytes(result));
                    put(merger.size_hint().0 as u64);
                }
                for (at, result, len) in u.utf16char_indices() {
                    put(at as u64 | (len as u64) << 32);
                    put(of_units!(result));
                }
                let mut merger = u.iter().to_utf16chars();
                let mut turn = 0;
                while let Some(result) = merger.next() {
                    put(of_units!(result));
                    put(merger.size_hint().0 as u64);
                    turn += 1;
                    if turn % 3 == 2 {
                        break;
                    }
                }
                merger.into_remaining_units().for_each(|unit| put(u64::from(*unit)));
            }

            fn fronts(b: &[u8], u: &[u16], put: &mut impl FnMut(u64)) {
                for k in 0..2.min(b.len()) {
                    put(char::from_utf8_slice_start(&b[k..]).map_or_else(|e| 1 << 40 | e.kind() as u64, |(c, len)| (c as u64) << 8 | len as u64));
                    put(of_bytes(Utf8Char::from_slice_start(&b[k..]).map(|it| it.0)));
                    put(b[k].extra_utf8_bytes().map_or_else(|e| 1 << 40 | e.kind() as u64, |n| n as u64));
                    put(b[k].extra_utf8_bytes_unchecked() as u64);
                }
                if let Some(four) = b.first_chunk::<4>() {
                    put(of_bytes(char::from_utf8_array(*four)));
                    put(of_bytes(Utf8Char::from_array(*four)));
                }
                if let Some(two) = u.first_chunk::<2>() {
                    put(of_units!(char::from_utf16_array(*two)));
                    put(of_units!(Utf16Char::from_array(*two)));
                    put(of_units!(char::from_utf16_tuple((two[0], Some(two[1])))));
                    put(of_units!(Utf16Char::from_tuple((two[0], None))));
                    put(of_units!(char::from_utf16_slice_start(u).map(|it| it.0)));
                    put(of_units!(Utf16Char::from_slice_start(u).map(|it| it.0)));
                    put(two[0].utf16_needs_extra_unit().map_or(7, u64::from) | u64::from(two[1].is_utf16_leading_surrogate()) << 8);
                    put(Utf16Char::from_bmp(two[0]).map_or(7, |c| u64::from(c.to_char())));
                }
            }

            fn characters(n: u32, put: &mut impl FnMut(u64)) {
                put(of_units!(char::from_u32_detailed(n)));
                let Ok(c) = char::from_u32_detailed(n) else { return };
                let (bytes, len) = c.to_utf8_array();
                put(u64::from(u32::from_le_bytes(bytes)) | (len as u64) << 32);
                let (first, second) = c.to_utf16_tuple();
                put(u64::from(first) | second.map_or(9 << 20, u64::from) << 32);
                let (x, y) = (c.to_utf8(), c.to_utf16());
                put(u64::from(x == y) | u64::from(x < 'é') << 1 | u64::from(y > 'é') << 2 | u64::from(x == b'a') << 3 | u64::from(y == 0x20ACu16) << 4);
                put(u64::from(x.is_ascii()) | (y.len() as u64) << 1 | u64::from(y.is_bmp()) << 8 | u64::from(x.eq_ignore_ascii_case(&'a'.to_utf8())) << 9);
                put(u64::from(x.to_ascii_uppercase().to_char()) | u64::from(y.to_ascii_lowercase().to_char()) << 32);
                x.into_iter().for_each(|byte| put(u64::from(byte)));
                y.into_iter().for_each(|unit| put(u64::from(unit)));
                put(x.as_str().len() as u64 | (y.to_array()[0] as u64) << 8);
            }

            fn texts(text: &str, mut turn: u32, put: &mut impl FnMut(u64)) {
                let (mut i, mut j) = (StrExt::utf8char_indices(text), StrExt::utf16char_indices(text));
                loop {
                    let (x, y) = if turn & 1 == 0 { (i.next(), j.next()) } else { (i.next_back(), j.next_back()) };
                    turn = turn.rotate_right(1);
                    let (Some(x), Some(y)) = (x, y) else { break };
                    put(x.0 as u64 | u64::from(x.1.to_char()) << 32);
                    put(y.0 as u64 | u64::from(y.1.to_char()) << 32);
                    put(i.as_str().len() as u64 | (j.size_hint().0 as u64) << 32);
                }
                let bytes: Vec<u8> = text.utf8chars().collect();
                bytes.iter().for_each(|byte| put(u64::from(*byte)));
                let units: Vec<u16> = text.utf16chars().collect();
                units.iter().for_each(|unit| put(u64::from(*unit)));
                let (one, other): (String, String) = (text.utf8chars().rev().collect(), text.utf16chars().collect());
                put(one.len() as u64 | (other.len() as u64) << 32);
                text.utf8chars().to_bytes().for_each(|byte| put(u64::from(byte)));
                text.utf16chars().to_units().for_each(|unit| put(u64::from(unit)));
            }

            pub fn all(b: &[u8], u: &[u16], n: u32) -> Vec<u64> {
                let mut out = Vec::with_capacity(200);
                let mut put = |x: u64| out.push(x);
                decoders(b, u, &mut put);
                fronts(b, u, &mut put);
                characters(n, &mut put);
                let text = String::from_utf8_lossy(b);
                texts(&text, n, &mut put);
                if n & 63 == 0 {
                    let mut shown = String::new();
                    let _ = write!(shown, "{:?} {:?} {:?} ", b.utf8char_indices(), b.iter().to_utf8chars(), u.utf16char_indices());
                    let _ = write!(shown, "{:?} {:?}", u.iter().to_utf16chars(), StrExt::utf8char_indices(&*text));
                    let _ = write!(shown, "{:?} {}", char::from_u32_detailed(n).map(|c| c.to_utf8()), 'é'.to_utf16());
                    shown.bytes().for_each(|byte| put(u64::from(byte)));
                }
                out
            }
        }
    };
}
answers!(theirs);
answers!(encode_unicode);

fn main() {
    let words: Vec<u64> = std::env::args().skip(1).filter_map(|it| it.parse().ok()).collect();
    let [seed, count] = words[..] else {
        eprintln!("usage: beside SEED COUNT");
        std::process::exit(2);
    };
    let mut chance = Chance(seed.wrapping_mul(0x9E37_79B9_7F4A_7C15) | 1);
    let (mut bytes, mut units, mut passed, mut failed, mut all) = (Vec::new(), Vec::new(), 0, 0, 0);
    for _ in 0..count {
        chance.bytes(&mut bytes);
        chance.units(&mut units);
        let n = chance.number();
        let (want, is) = (theirs::all(&bytes, &units, n), encode_unicode::all(&bytes, &units, n));
        all += want.len();
        if want == is {
            passed += 1;
        } else {
            failed += 1;
            if failed <= 5 {
                println!("beside: {bytes:x?} {units:x?} {n:x}\n{want:x?}\n{is:x?}");
            }
        }
    }
    println!("beside: {all} answers");
    println!("{passed} passed, {failed} failed");
    std::process::exit(i32::from(failed > 0));
}
