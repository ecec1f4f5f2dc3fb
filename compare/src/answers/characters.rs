//! Single characters, bytes and units, and what begins a slice or a text.

use super::side::iterator::Utf8CharDecoder;
use super::side::{CharExt, SliceExt, U16UtfExt, U8UtfExt, Utf16Char, Utf8Char};
use crate::numbers::{Answers, ErrorNumber, NOTHING, RANGE_START};
use std::cmp::Ordering;
use std::fmt::{Debug, Display};

fn put_utf8(to: &mut Answers, name: &'static str, c: Utf8Char) {
    let (bytes, len) = c.to_array();
    to.put_bytes(name, &bytes);
    to.put_size(name, len);
}

fn put_utf16(to: &mut Answers, name: &'static str, c: Utf16Char) {
    to.put_units(name, &c.to_array());
}

fn put_order(to: &mut Answers, name: &'static str, order: Option<Ordering>) {
    let number = match order {
        Some(Ordering::Less) => 0,
        Some(Ordering::Equal) => 1,
        Some(Ordering::Greater) => 2,
        None => NOTHING,
    };
    to.put(name, number);
}

/// The decoder that is made from the slice, and the one that the slice's own method makes.
pub fn decoders(src: &[u8]) -> Answers {
    items(Utf8CharDecoder::from(src)).and(items(src.utf8char_indices()))
}

fn items(mut decoder: Utf8CharDecoder) -> Answers {
    let mut to = Answers::default();
    loop {
        to.put_hint(decoder.size_hint());
        to.put_size("as_slice().len()", decoder.as_slice().len());
        let Some((offset, answer, len)) = decoder.next() else {
            to.put("next() at the end", NOTHING);
            return to;
        };
        to.put_item(offset, answer, len);
    }
}

pub fn text(src: &[u8]) -> Answers {
    let mut to = Answers::default();
    if let Ok(text) = std::str::from_utf8(src) {
        to.put_front("Utf8Char::from_str_start", Utf8Char::from_str_start(text));
        to.put_answer("Utf8Char::from_str", text.parse::<Utf8Char>());
        to.put_front("Utf16Char::from_str_start", Utf16Char::from_str_start(text));
        to.put_answer("Utf16Char::from_str", text.parse::<Utf16Char>());
    }
    to
}

pub fn number(number: u32) -> Answers {
    let mut to = Answers::default();
    match char::from_u32_detailed(number) {
        Ok(c) => to.put_char("from_u32_detailed", c),
        Err(error) => {
            let range = error.error_range();
            to.put("from_u32_detailed", error.number());
            to.put(RANGE_START, u64::from(*range.start()));
            to.put("error_range().end()", u64::from(*range.end()));
        }
    }
    to
}

pub fn of_char(number: u32) -> Answers {
    char::from_u32(number).map_or_else(Answers::default, codes_of)
}

fn codes_of(c: char) -> Answers {
    let mut to = Answers::default();
    let (bytes, len) = c.to_utf8_array();
    to.put_bytes("to_utf8_array", &bytes);
    to.put_size("to_utf8_array", len);
    to.put_units("to_utf16_array", &c.to_utf16_array());
    to.put_tuple("to_utf16_tuple", c.to_utf16_tuple());
    put_utf8(&mut to, "to_utf8", c.to_utf8());
    put_utf16(&mut to, "to_utf16", c.to_utf16());
    // The bytes are the code of one scalar.
    let own = unsafe { char::from_utf8_exact_slice_unchecked(&bytes[..len]) };
    to.put_char("from_utf8_exact_slice_unchecked", own);
    let own = char::from_utf16_array_unchecked(c.to_utf16_array());
    to.put_char("from_utf16_array_unchecked", own);
    to
}

pub fn utf8_char(number: u32, byte: u8) -> Answers {
    char::from_u32(number).map_or_else(Answers::default, |scalar| utf8_answers(scalar, byte))
}

fn utf8_answers(scalar: char, byte: u8) -> Answers {
    let mut to = Answers::default();
    let c = Utf8Char::new(scalar);
    to.put_size("len", c.len());
    to.put_bool("is_ascii", c.is_ascii());
    to.put_char("to_char", c.to_char());
    to.put_char("char::from", char::from(c));
    put_utf8(&mut to, "to_array", c);
    put_utf8(&mut to, "from(char)", Utf8Char::from(scalar));
    put_utf16(&mut to, "Utf16Char::from", Utf16Char::from(c));
    to.put_bytes("as_bytes", c.as_ref());
    to.put_bytes("as_str", c.as_str().as_bytes());
    let mut room = [0xaa; 4];
    to.put_size("to_slice", c.to_slice(&mut room));
    to.put_bytes("to_slice", &room);
    put_utf8_cases(&mut to, c);
    to.put_bool("eq_u8", c == byte);
    to.put_bool("default", c == Utf8Char::default());
    put_utf8_unchecked(&mut to, scalar);
    to
}

fn put_utf8_cases(to: &mut Answers, c: Utf8Char) {
    put_utf8(to, "to_ascii_uppercase", c.to_ascii_uppercase());
    put_utf8(to, "to_ascii_lowercase", c.to_ascii_lowercase());
    let mut upper = c;
    upper.make_ascii_uppercase();
    put_utf8(to, "make_ascii_uppercase", upper);
    let mut lower = c;
    lower.make_ascii_lowercase();
    put_utf8(to, "make_ascii_lowercase", lower);
}

// The bytes are a code and then zeros.
fn put_utf8_unchecked(to: &mut Answers, c: char) {
    let (bytes, _) = c.to_utf8_array();
    let own = unsafe { Utf8Char::from_array_unchecked(bytes) };
    put_utf8(to, "from_array_unchecked", own);
    let (first, len) = unsafe { Utf8Char::from_slice_start_unchecked(&bytes) };
    put_utf8(to, "from_slice_start_unchecked", first);
    to.put_size("from_slice_start_unchecked", len);
}

pub fn utf16_char(number: u32, byte: u8, unit: u16) -> Answers {
    char::from_u32(number).map_or_else(Answers::default, |scalar| utf16_answers(scalar, byte, unit))
}

fn utf16_answers(scalar: char, byte: u8, unit: u16) -> Answers {
    let mut to = Answers::default();
    let c = Utf16Char::new(scalar);
    to.put_size("len", c.len());
    to.put_bool("is_ascii", c.is_ascii());
    to.put_bool("is_bmp", c.is_bmp());
    to.put_char("to_char", c.to_char());
    to.put_char("char::from", char::from(c));
    put_utf16(&mut to, "to_array", c);
    to.put_tuple("to_tuple", c.to_tuple());
    put_utf16(&mut to, "from(char)", Utf16Char::from(scalar));
    put_utf8(&mut to, "Utf8Char::from", Utf8Char::from(c));
    to.put_units("as_units", c.as_ref());
    let mut room = [0xaaaa; 2];
    to.put_size("to_slice", c.to_slice(&mut room));
    to.put_units("to_slice", &room);
    put_utf16_cases(&mut to, c);
    to.put_bool("eq_u8", c == byte);
    to.put_bool("eq_u16", c == unit);
    to.put_bool("default", c == Utf16Char::default());
    put_utf16_unchecked(&mut to, scalar);
    to
}

fn put_utf16_cases(to: &mut Answers, c: Utf16Char) {
    put_utf16(to, "to_ascii_uppercase", c.to_ascii_uppercase());
    put_utf16(to, "to_ascii_lowercase", c.to_ascii_lowercase());
    let mut upper = c;
    upper.make_ascii_uppercase();
    put_utf16(to, "make_ascii_uppercase", upper);
    let mut lower = c;
    lower.make_ascii_lowercase();
    put_utf16(to, "make_ascii_lowercase", lower);
}

// The units are a code and then zero where it has one unit.
fn put_utf16_unchecked(to: &mut Answers, c: char) {
    let units = c.to_utf16_array();
    let own = unsafe { Utf16Char::from_array_unchecked(units) };
    put_utf16(to, "from_array_unchecked", own);
    let (first, len) = unsafe { Utf16Char::from_slice_start_unchecked(&units) };
    put_utf16(to, "from_slice_start_unchecked", first);
    to.put_size("from_slice_start_unchecked", len);
    let own = unsafe { Utf16Char::from_tuple_unchecked((units[0], Some(units[1]))) };
    put_utf16(to, "from_tuple_unchecked", own);
}

pub fn shown(number: u32) -> Answers {
    let mut to = Answers::default();
    if let Some(c) = char::from_u32(number) {
        put_shown(&mut to, "Display, Debug of Utf8Char", Utf8Char::new(c));
        put_shown(&mut to, "Display, Debug of Utf16Char", Utf16Char::new(c));
    }
    to
}

// Each text is written, and has a length and bytes.
fn put_shown(to: &mut Answers, name: &'static str, c: impl Display + Debug) {
    for text in [format!("{c}"), format!("{c:?}")] {
        to.put_bool(name, true);
        to.put_size(name, text.len());
        to.put_bytes(name, text.as_bytes());
    }
}

pub fn byte(byte: u8) -> Answers {
    let mut to = Answers::default();
    match byte.extra_utf8_bytes() {
        Ok(extra) => to.put_size("extra_utf8_bytes", extra),
        Err(error) => to.put("extra_utf8_bytes", error.number()),
    }
    let extra = byte.extra_utf8_bytes_unchecked();
    to.put_size("extra_utf8_bytes_unchecked", extra);
    to.put_answer("from_ascii", Utf8Char::from_ascii(byte));
    if byte.is_ascii() {
        let own = unsafe { Utf8Char::from_ascii_unchecked(byte) };
        put_utf8(&mut to, "from_ascii_unchecked", own);
    }
    to
}

pub fn unit(unit: u16) -> Answers {
    let mut to = Answers::default();
    match unit.utf16_needs_extra_unit() {
        Ok(more) => to.put_bool("utf16_needs_extra_unit", more),
        Err(error) => to.put("utf16_needs_extra_unit", error.number()),
    }
    let leading = unit.is_utf16_leading_surrogate();
    to.put_bool("is_utf16_leading_surrogate", leading);
    to.put_answer("from_bmp", Utf16Char::from_bmp(unit));
    if char::from_u32(u32::from(unit)).is_some() {
        let own = unsafe { Utf16Char::from_bmp_unchecked(unit) };
        put_utf16(&mut to, "from_bmp_unchecked", own);
        let own = unsafe { char::from_utf16_tuple_unchecked((unit, None)) };
        to.put_char("from_utf16_tuple_unchecked", own);
    }
    to
}

pub fn two_units(first: u16, second: u16) -> Answers {
    let mut to = Answers::default();
    let units = [first, second];
    to.put_answer("char::from_utf16_array", char::from_utf16_array(units));
    to.put_answer("Utf16Char::from_array", Utf16Char::from_array(units));
    let taken = char::from_utf16_array_unchecked(units);
    to.put_char("from_utf16_array_unchecked", taken);
    let pair = (first, Some(second));
    // Of each of two units it takes ten bits, whatever they are.
    let taken = unsafe { char::from_utf16_tuple_unchecked(pair) };
    to.put_char("from_utf16_tuple_unchecked", taken);
    put_tuple_answers(&mut to, (first, None));
    put_tuple_answers(&mut to, pair);
    for len in 0..=2 {
        let src = &units[..len];
        let plain = char::from_utf16_slice_start(src);
        to.put_front("char::from_utf16_slice_start", plain);
        let kept = Utf16Char::from_slice_start(src);
        to.put_front("Utf16Char::from_slice_start", kept);
    }
    to
}

fn put_tuple_answers(to: &mut Answers, units: (u16, Option<u16>)) {
    to.put_answer("char::from_utf16_tuple", char::from_utf16_tuple(units));
    to.put_answer("Utf16Char::from_tuple", Utf16Char::from_tuple(units));
}

pub fn four_bytes(bytes: [u8; 4]) -> Answers {
    let mut to = Answers::default();
    to.put_answer("char::from_utf8_array", char::from_utf8_array(bytes));
    to.put_answer("Utf8Char::from_array", Utf8Char::from_array(bytes));
    for len in 0..=4 {
        let src = &bytes[..len];
        let plain = char::from_utf8_slice_start(src);
        to.put_front("char::from_utf8_slice_start", plain);
        let kept = Utf8Char::from_slice_start(src);
        to.put_front("Utf8Char::from_slice_start", kept);
    }
    to
}

pub fn two_chars(one: char, other: char) -> Answers {
    let mut to = Answers::default();
    let (one8, other8) = (Utf8Char::new(one), Utf8Char::new(other));
    to.put_bool("Utf8Char ==", one8 == other8);
    let alike = one8.eq_ignore_ascii_case(&other8);
    to.put_bool("Utf8Char::eq_ignore_ascii_case", alike);
    to.put_bool("Utf8Char <", one8 < other8);
    put_order(&mut to, "Utf8Char::cmp", Some(one8.cmp(&other8)));
    let (one16, other16) = (Utf16Char::new(one), Utf16Char::new(other));
    to.put_bool("Utf16Char ==", one16 == other16);
    let alike = one16.eq_ignore_ascii_case(&other16);
    to.put_bool("Utf16Char::eq_ignore_ascii_case", alike);
    to.put_bool("Utf16Char <", one16 < other16);
    put_order(&mut to, "Utf16Char::cmp", Some(one16.cmp(&other16)));
    put_across(&mut to, one, other);
    to
}

// Comparisons across types, which the Rust crate writes as operators.
fn put_across(to: &mut Answers, one: char, other: char) {
    let (one8, other8) = (Utf8Char::new(one), Utf8Char::new(other));
    let (one16, other16) = (Utf16Char::new(one), Utf16Char::new(other));
    to.put_bool("Utf8Char::eq_char", one8 == other);
    put_order(to, "Utf8Char::cmp_char", one8.partial_cmp(&other));
    to.put_bool("Utf8Char::eq_utf16", one8 == other16);
    put_order(to, "Utf8Char::cmp_utf16", one8.partial_cmp(&other16));
    to.put_bool("Utf16Char::eq_char", one16 == other);
    put_order(to, "Utf16Char::cmp_char", one16.partial_cmp(&other));
    to.put_bool("Utf16Char::eq_utf8", one16 == other8);
    put_order(to, "Utf16Char::cmp_utf8", one16.partial_cmp(&other8));
}
