//! The characters of a text collected, or added to a collection.

use super::side::{IterExt, StrExt};
use crate::numbers::Answers;

fn put_bytes(to: &mut Answers, name: &'static str, bytes: Vec<u8>) {
    to.put_size(name, bytes.len());
    to.put_bytes(name, &bytes);
}

fn put_string(to: &mut Answers, name: &'static str, string: String) {
    put_bytes(to, name, string.into_bytes());
}

fn put_units(to: &mut Answers, name: &'static str, units: Vec<u16>) {
    to.put_size(name, units.len());
    to.put_units(name, &units);
}

/// What is made of the characters, from the front and from the end, and what is made of others and these.
pub fn collections(text: &str, before: &str) -> Answers {
    let mut to = Answers::default();
    put_collected(&mut to, text);
    put_extended(&mut to, text, before);
    to
}

fn put_collected(to: &mut Answers, text: &str) {
    put_bytes(to, "collect_bytes", text.utf8chars().collect());
    put_bytes(to, "collect_bytes, rev", text.utf8chars().rev().collect());
    put_string(to, "collect_string", text.utf8chars().collect());
    put_string(to, "collect_string, rev", text.utf8chars().rev().collect());
    put_units(to, "collect_units", text.utf16chars().collect());
    put_units(to, "collect_units, rev", text.utf16chars().rev().collect());
    put_string(to, "collect_string of units", text.utf16chars().collect());
    let backward = text.utf16chars().rev().collect();
    put_string(to, "collect_string of units, rev", backward);
    put_bytes(to, "to_bytes", text.utf8chars().to_bytes().collect());
    put_units(to, "to_units", text.utf16chars().to_units().collect());
}

fn put_extended(to: &mut Answers, text: &str, before: &str) {
    let mut bytes = before.as_bytes().to_vec();
    bytes.extend(text.utf8chars());
    put_bytes(to, "extend_bytes", bytes);
    let mut string = String::from(before);
    string.extend(text.utf8chars());
    put_string(to, "extend_string", string);
    let mut units: Vec<u16> = before.encode_utf16().collect();
    units.extend(text.utf16chars());
    put_units(to, "extend_units", units);
    let mut string = String::from(before);
    string.extend(text.utf16chars());
    put_string(to, "extend_string of units", string);
}
