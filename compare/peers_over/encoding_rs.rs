//! A crate in the place of `encoding_rs`: what the tests of its module `utf_8` call, over this project's library.
#![allow(dead_code)]
mod ours;

pub struct Encoding;
pub static UTF_8: &Encoding = &Encoding;

#[derive(Clone, Copy, Debug, PartialEq, Eq)]
pub enum EncoderResult {
    InputEmpty,
    OutputFull,
}

pub struct Encoder;

impl Encoding {
    pub fn new_encoder(&self) -> Encoder {
        Encoder
    }
}

fn bytes_of(units: &[u16]) -> Vec<u8> {
    units.iter().flat_map(|it| it.to_le_bytes()).collect()
}

impl Encoder {
    pub fn encode_from_utf16_without_replacement(&mut self, units: &[u16], out: &mut [u8], _last: bool) -> (EncoderResult, usize, usize) {
        let (read, written, is_done) = ours::recode_into(ours::UTF16LE, ours::UTF8, &bytes_of(units), out);
        (if is_done { EncoderResult::InputEmpty } else { EncoderResult::OutputFull }, read / 2, written)
    }
}

pub mod testing {
    use super::{bytes_of, ours, Encoding};

    /// With one U+FFFD for each maximal subpart. The recoder has one for each byte of it, at each split of the input.
    pub fn decode_to_utf8(_: &Encoding, bytes: &[u8], expect: &str) {
        assert_eq!(expect, ours::lossy(bytes, |_| 1));
        let each = ours::lossy(bytes, |len| len);
        for at in 0..=bytes.len() {
            assert_eq!(each.as_bytes(), ours::recode(ours::UTF8, ours::UTF8, bytes, at));
        }
    }

    pub fn encode_from_utf16(_: &Encoding, units: &[u16], expect: &[u8]) {
        let bytes = bytes_of(units);
        for at in 0..=bytes.len() {
            assert_eq!(expect, ours::recode(ours::UTF16LE, ours::UTF8, &bytes, at));
        }
    }

    pub fn encode_from_utf8(_: &Encoding, text: &str, expect: &[u8]) {
        assert_eq!(expect, ours::recode(ours::UTF8, ours::UTF8, text.as_bytes(), 0));
    }
}

mod utf_8 {
    include!("peer_tests.rs");
}
