//! Transcoding by std: whole inputs by way of a `String`, since it has no call for parts. It gives one U+FFFD for each maximal
//! subpart.

use std::hint::black_box;

/// How many bytes come out of these.
pub fn at_once(from: usize, to: usize, src: &[u8]) -> u64 {
    let text = match from {
        0 => String::from_utf8_lossy(src).into_owned(),
        1 => of_units(src, u16::from_le_bytes),
        _ => of_units(src, u16::from_be_bytes),
    };
    let made: Vec<u8> = match to {
        0 => text.into_bytes(),
        1 => text.encode_utf16().flat_map(u16::to_le_bytes).collect(),
        _ => text.encode_utf16().flat_map(u16::to_be_bytes).collect(),
    };
    black_box(&made).len() as u64
}

fn of_units(src: &[u8], unit: impl Fn([u8; 2]) -> u16) -> String {
    let units = src.chunks_exact(2).map(|pair| unit([pair[0], pair[1]]));
    char::decode_utf16(units).map(|c| c.unwrap_or(char::REPLACEMENT_CHARACTER)).collect()
}
