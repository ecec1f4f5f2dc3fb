//! The kinds of work by a crate with the names of `encode_unicode`, which is `side` in the module above.
//!
//! The text is compiled twice: over this project's crate for Cargo in `ours`, and over the Rust crate in `rust`.

use super::side::error::{Utf16PairError, Utf16SliceError, Utf8Error, Utf8ErrorKind};
use super::side::iterator::{Utf16CharDecoder, Utf8CharDecoder};
use super::side::{CharExt, IterExt, StrExt, Utf16Char, Utf8Char};
use super::TOO_LOW;
use crate::collections::{extended, marked_bytes, marked_string, marked_units};
use crate::sums::{placed, scalar, sum_of, sum_of_bytes, sum_of_string, sum_of_units, word_of, Checksum, ERROR};
use std::io::Read;

#[inline(always)]
pub fn number_of(kind: Utf8ErrorKind) -> u32 {
    ERROR
        | match kind {
            Utf8ErrorKind::TooFewBytes => 0,
            Utf8ErrorKind::NonUtf8Byte => 1,
            Utf8ErrorKind::UnexpectedContinuationByte => 2,
            Utf8ErrorKind::InterruptedSequence => 3,
            Utf8ErrorKind::OverlongEncoding => 4,
            Utf8ErrorKind::Utf16ReservedCodepoint => 5,
            Utf8ErrorKind::TooHighCodepoint => 6,
        }
}

#[inline(always)]
fn unit_number_of(error: Utf16SliceError) -> u32 {
    ERROR
        | match error {
            Utf16SliceError::EmptySlice => 0,
            Utf16SliceError::FirstIsTrailingSurrogate => 1,
            Utf16SliceError::MissingSecond => 2,
            Utf16SliceError::SecondIsNotTrailingSurrogate => 3,
        }
}

#[inline(always)]
fn pair_number_of(error: Utf16PairError) -> u32 {
    ERROR
        | match error {
            Utf16PairError::UnexpectedTrailingSurrogate => 0,
            Utf16PairError::UnmatchedLeadingSurrogate => 1,
            Utf16PairError::Incomplete => 2,
        }
}

pub fn forward(src: &[u8]) -> u64 {
    let mut sum = Checksum::default();
    for (place, answer, len) in Utf8CharDecoder::from(src) {
        let what = match answer {
            Ok(c) => c.to_char() as u32,
            Err(error) => number_of(error.kind()),
        };
        sum.add(word_of(place, len, what));
    }
    sum.value()
}

pub fn starts(src: &[u8]) -> u64 {
    let mut sum = Checksum::default();
    let mut place = 0;
    while place < src.len() {
        let (what, len) = match char::from_utf8_slice_start(&src[place..]) {
            Ok((c, len)) => (c as u32, len),
            Err(error) => (number_of(error.kind()), 1),
        };
        sum.add(word_of(place, len, what));
        place += len;
    }
    sum.value()
}

pub fn units(src: &[u16]) -> u64 {
    let mut sum = Checksum::default();
    let mut place = 0;
    while place < src.len() {
        let (what, len) = match char::from_utf16_slice_start(&src[place..]) {
            Ok((c, len)) => (c as u32, len),
            Err(error) => (unit_number_of(error), 1),
        };
        sum.add(word_of(place, len, what));
        place += len;
    }
    sum.value()
}

pub fn to_utf8(src: &[u32]) -> u64 {
    let mut sum = Checksum::default();
    for number in src {
        if let Ok(c) = char::from_u32_detailed(*number) {
            let (code, len) = c.to_utf8_array();
            sum.add(word_of(len, 0, u32::from_le_bytes(code)));
        }
    }
    sum.value()
}

pub fn to_utf16(src: &[u32]) -> u64 {
    let mut sum = Checksum::default();
    for number in src {
        if let Ok(c) = char::from_u32_detailed(*number) {
            let [first, second] = c.to_utf16_array();
            sum.add((second as u64) << 16 | first as u64);
        }
    }
    sum.value()
}

pub fn between(src: &[u8]) -> u64 {
    let mut sum = Checksum::default();
    for (_, answer, _) in Utf8CharDecoder::from(src) {
        if let Ok(c) = answer {
            let other = Utf16Char::from(c);
            let [first, second] = other.to_array();
            let (code, _) = Utf8Char::from(other).to_array();
            let units = (second as u32) << 16 | first as u32;
            sum.add((units as u64) << 32 | u32::from_le_bytes(code) as u64);
        }
    }
    sum.value()
}

pub fn unit_decoder(src: &[u16]) -> u64 {
    let mut sum = Checksum::default();
    for (place, answer, len) in Utf16CharDecoder::from(src) {
        let what = match answer {
            Ok(c) => c.to_char() as u32,
            Err(error) => pair_number_of(error),
        };
        sum.add(word_of(place, len, what));
    }
    sum.value()
}

pub fn merger(src: &[u8]) -> u64 {
    let mut sum = Checksum::default();
    for answer in src.iter().copied().to_utf8chars() {
        let what = match answer {
            Ok(c) => c.to_char() as u32,
            Err(error) => number_of(error.kind()),
        };
        sum.add(u64::from(what));
    }
    sum.value()
}

pub fn unit_merger(src: &[u16]) -> u64 {
    let mut sum = Checksum::default();
    for answer in src.iter().copied().to_utf16chars() {
        let what = match answer {
            Ok(c) => c.to_char() as u32,
            Err(error) => pair_number_of(error),
        };
        sum.add(u64::from(what));
    }
    sum.value()
}

type Item = (usize, Result<Utf8Char, Utf8Error>, usize);

#[inline(always)]
fn add_front(sum: &mut Checksum, (place, answer, len): Item) {
    match answer {
        Ok(c) => sum.add(word_of(place, len, c.to_char() as u32)),
        Err(error) => sum.add(word_of(place, len, number_of(error.kind()))),
    }
}

#[inline(always)]
fn add_back(sum: &mut Checksum, (place, answer, len): Item) {
    match answer {
        Ok(c) => sum.add(word_of(place, len, c.to_char() as u32)),
        Err(error) => sum.add(word_of(place.wrapping_add(TOO_LOW), len, number_of(error.kind()))),
    }
}

pub fn backward(src: &[u8]) -> u64 {
    let mut sum = Checksum::default();
    for item in Utf8CharDecoder::from(src).rev() {
        add_back(&mut sum, item);
    }
    sum.value()
}

pub fn ends(src: &[u8]) -> u64 {
    let mut sum = Checksum::default();
    let mut pieces = Utf8CharDecoder::from(src);
    while let Some(first) = pieces.next() {
        add_front(&mut sum, first);
        if let Some(last) = pieces.next_back() {
            add_back(&mut sum, last);
        }
    }
    sum.value()
}

// How many bytes one call of `read` may move.
const ROOM: usize = 4096;

pub fn bytes_read(text: &str) -> u64 {
    let mut sum = Checksum::default();
    let mut buffer = [0; ROOM];
    let mut bytes = text.utf8chars().to_bytes();
    loop {
        let count = bytes.read(&mut buffer).unwrap_or(0);
        sum.add(count as u64);
        add_buffer(&mut sum, &buffer);
        if count < ROOM {
            return sum.value();
        }
    }
}

#[inline(always)]
fn add_buffer(sum: &mut Checksum, buffer: &[u8; ROOM]) {
    for word in buffer.as_chunks().0 {
        sum.add(u64::from_le_bytes(*word));
    }
}

pub fn bytes_next(text: &str) -> u64 {
    sum_of(text.utf8chars().to_bytes().map(u64::from))
}

pub fn units_next(text: &str) -> u64 {
    sum_of(text.utf16chars().to_units().map(u64::from))
}

pub fn utf8chars(text: &str) -> u64 {
    sum_of(text.utf8chars().map(|c| scalar(c.to_char())))
}

pub fn utf8chars_back(text: &str) -> u64 {
    sum_of(text.utf8chars().rev().map(|c| scalar(c.to_char())))
}

pub fn indices(text: &str) -> u64 {
    sum_of(text.utf8char_indices().map(|(place, c)| placed(place, c.to_char())))
}

pub fn indices_back(text: &str) -> u64 {
    sum_of(text.utf8char_indices().rev().map(|(place, c)| placed(place, c.to_char())))
}

pub fn utf16chars(text: &str) -> u64 {
    sum_of(text.utf16chars().map(|c| scalar(c.to_char())))
}

pub fn utf16chars_back(text: &str) -> u64 {
    sum_of(text.utf16chars().rev().map(|c| scalar(c.to_char())))
}

pub fn collect_bytes(text: &str) -> u64 {
    sum_of_bytes(text.utf8chars().collect())
}

pub fn collect_string(text: &str) -> u64 {
    sum_of_string(text.utf8chars().collect())
}

pub fn extend_bytes(text: &str) -> u64 {
    sum_of_bytes(extended(marked_bytes(text), text.utf8chars()))
}

pub fn extend_string(text: &str) -> u64 {
    sum_of_string(extended(marked_string(text), text.utf8chars()))
}

pub fn collect_units(text: &str) -> u64 {
    sum_of_units(text.utf16chars().collect())
}

pub fn extend_units(text: &str) -> u64 {
    sum_of_units(extended(marked_units(text), text.utf16chars()))
}

pub fn collect_string16(text: &str) -> u64 {
    sum_of_string(text.utf16chars().collect())
}

pub fn extend_string16(text: &str) -> u64 {
    sum_of_string(extended(marked_string(text), text.utf16chars()))
}
