//! Transcoding by `encoding_rs`, which replaces a maximal subpart by one U+FFFD. It writes no big-endian UTF-16.

use encoding_rs::{Decoder, Encoding, UTF_16BE, UTF_16LE, UTF_8};
use std::hint::black_box;

/// Its output buffers, made once and used again.
pub struct Rooms {
    bytes: Vec<u8>,
    units: Vec<u16>,
}

impl Rooms {
    /// Buffers for the output of a part of `part` bytes.
    pub fn new(part: usize) -> Rooms {
        Rooms { bytes: vec![0; 3 * part + 16], units: vec![0; 2 * part + 16] }
    }
}

/// Whether it has such a call.
pub fn does(to: usize) -> bool {
    to < 2
}

/// The length of the output for these, fed in parts of `part` bytes.
pub fn in_parts(from: usize, to: usize, src: &[u8], part: usize, rooms: &mut Rooms) -> u64 {
    let mut decoder = decoder_of(from);
    let (parts, mut total) = (src.len().div_ceil(part), 0);
    for (number, part) in src.chunks(part).enumerate() {
        total += fed(&mut decoder, to, part, number + 1 == parts, rooms);
    }
    total
}

/// The length of the output for short texts of `each` bytes, converted independently.
#[inline(never)]
pub fn short(from: usize, to: usize, src: &[u8], each: usize, rooms: &mut Rooms) -> u64 {
    src.chunks(each).map(|text| fed(&mut decoder_of(from), to, text, true, rooms)).sum()
}

fn decoder_of(from: usize) -> Decoder {
    let encoding: &'static Encoding = [UTF_8, UTF_16LE, UTF_16BE][from];
    encoding.new_decoder_without_bom_handling()
}

#[inline(always)]
fn fed(decoder: &mut Decoder, to: usize, part: &[u8], is_last: bool, rooms: &mut Rooms) -> u64 {
    if to == 0 {
        let (_, read, written, _) = decoder.decode_to_utf8(part, &mut rooms.bytes, is_last);
        assert_eq!(read, part.len());
        black_box(&rooms.bytes[..written]).len() as u64
    } else {
        let (_, read, written, _) = decoder.decode_to_utf16(part, &mut rooms.units, is_last);
        assert_eq!(read, part.len());
        2 * black_box(&rooms.units[..written]).len() as u64
    }
}
