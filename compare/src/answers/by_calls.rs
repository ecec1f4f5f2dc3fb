//! The iterators over texts and over the codes of characters, call by call.

use super::side::iterator::{
    Utf16CharIndices, Utf16Chars, Utf16Iterator, Utf8CharIndices, Utf8Chars, Utf8Iterator,
};
use super::side::{CharExt, IterExt, StrExt};
use crate::inputs::{FROM_BACK, MOST_PLACES, NEXTS};
use crate::numbers::{Answers, NOTHING};
use std::io::Read;

/// The text by each of the four iterators over its characters.
pub fn walks(text: &str, word: &[u8]) -> Answers {
    let mut to = Answers::default();
    let indices = text.utf8char_indices();
    put_walk(&mut to, word, indices, Utf8CharIndices::as_str, put_place);
    let chars = text.utf8chars();
    put_walk(&mut to, word, chars, Utf8Chars::as_str, put_scalar);
    let indices = text.utf16char_indices();
    put_walk(&mut to, word, indices, Utf16CharIndices::as_str, put_place);
    let chars = text.utf16chars();
    put_walk(&mut to, word, chars, Utf16Chars::as_str, put_scalar);
    to
}

fn put_walk<'a, I: DoubleEndedIterator>(
    to: &mut Answers,
    word: &[u8],
    mut walk: I,
    rest: fn(&I) -> &'a str,
    put_item: fn(&mut Answers, Option<I::Item>),
) {
    for letter in word {
        to.put_hint(walk.size_hint());
        let item = match *letter {
            FROM_BACK => walk.next_back(),
            _ => walk.next(),
        };
        put_item(to, item);
        to.put_text("as_str()", rest(&walk));
    }
}

fn put_place<C: Into<char>>(to: &mut Answers, item: Option<(usize, C)>) {
    let offset = item.as_ref().map_or(NOTHING, |(offset, _)| *offset as u64);
    to.put("offset", offset);
    put_scalar(to, item.map(|(_, c)| c));
}

fn put_scalar<C: Into<char>>(to: &mut Answers, item: Option<C>) {
    let scalar = item.map_or(NOTHING, |c| u64::from(u32::from(c.into())));
    to.put("scalar", scalar);
}

/// The codes of a character: its bytes by `next` alone and by these steps, and its units by four calls.
pub fn codes_of_char(c: char, steps: &[u8]) -> Answers {
    bytes_of_char(c, &NEXTS).and(bytes_of_char(c, steps)).and(units_of_char(c, 4))
}

fn bytes_of_char(c: char, steps: &[u8]) -> Answers {
    let mut to = Answers::default();
    put_bytes(&mut to, c.iter_utf8_bytes(), steps);
    put_bytes(&mut to, c.to_utf8().into_iter(), steps);
    to
}

fn put_bytes(to: &mut Answers, mut bytes: Utf8Iterator, steps: &[u8]) {
    for step in steps {
        to.put_size("len()", bytes.len());
        put_step(to, &mut bytes, *step);
    }
}

// One call of an iterator of bytes: a read of `step` bytes, or `next` if that is more than a read has.
fn put_step(to: &mut Answers, bytes: &mut (impl Iterator<Item = u8> + Read), step: u8) {
    to.put_hint(bytes.size_hint());
    let count = usize::from(step);
    if count > MOST_PLACES {
        to.put_next(bytes.next());
        return;
    }
    let mut places = [0xaa; MOST_PLACES];
    let read = bytes.read(&mut places[..count]);
    to.put_read(read, &places);
}

fn units_of_char(c: char, calls: usize) -> Answers {
    let mut to = Answers::default();
    put_units(&mut to, c.iter_utf16_units(), calls);
    put_units(&mut to, c.to_utf16().into_iter(), calls);
    to
}

fn put_units(to: &mut Answers, mut units: Utf16Iterator, calls: usize) {
    for _ in 0..calls {
        to.put_size("len()", units.len());
        to.put_hint(units.size_hint());
        to.put_next(units.next());
    }
}

/// The encoded characters of a text: the bytes by these steps, and the units by `calls` calls.
pub fn codes_of_text(text: &str, steps: &[u8], calls: usize) -> Answers {
    bytes_of_text(text, steps).and(units_of_text(text, calls))
}

fn bytes_of_text(text: &str, steps: &[u8]) -> Answers {
    let mut to = Answers::default();
    let mut splitter = text.utf8chars().to_bytes();
    for step in steps {
        put_step(&mut to, &mut splitter, *step);
    }
    to.put_text("into_inner().as_str()", splitter.into_inner().as_str());
    to
}

fn units_of_text(text: &str, calls: usize) -> Answers {
    let mut to = Answers::default();
    let mut splitter = text.utf16chars().to_units();
    for _ in 0..calls {
        to.put_hint(splitter.size_hint());
        to.put_next(splitter.next());
    }
    to.put_text("into_inner().as_str()", splitter.into_inner().as_str());
    to
}
