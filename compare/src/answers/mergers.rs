//! The mergers over the elements of a slice.

use super::side::iterator::{Utf16CharMerger, Utf8CharMerger};
use super::side::IterExt;
use crate::numbers::{Answers, NOTHING};
use std::iter::Copied;
use std::slice::Iter;

fn put_rest<T: Into<u64>>(to: &mut Answers, name: &'static str, rest: impl Iterator<Item = T>) {
    for element in rest {
        to.put(name, element.into());
    }
    to.put(name, NOTHING);
}

/// The merger's items, call by call. What its source still has comes first, after each character, and at the end.
pub fn merged_bytes(src: &[u8]) -> Answers {
    let mut to = Answers::default();
    let mut merger: Utf8CharMerger<u8, Copied<Iter<u8>>> = src.iter().copied().to_utf8chars();
    put_rest(&mut to, "into_inner()", merger.clone().into_inner());
    loop {
        to.put_hint(merger.size_hint());
        let Some(answer) = merger.next() else {
            to.put("next() at the end", NOTHING);
            put_rest(&mut to, "into_inner()", merger.into_inner());
            return to;
        };
        to.put_answer("item", answer);
        if answer.is_ok() {
            put_rest(&mut to, "into_inner()", merger.clone().into_inner());
        }
    }
}

/// The merger's items, call by call, and the rest of the source after each.
pub fn merged_units(src: &[u16]) -> Answers {
    let mut to = Answers::default();
    let mut merger: Utf16CharMerger<u16, Copied<Iter<u16>>> = src.iter().copied().to_utf16chars();
    put_rest(&mut to, "into_remaining_units()", merger.clone().into_remaining_units());
    loop {
        to.put_hint(merger.size_hint());
        let item = merger.next();
        match item {
            None => to.put("next() at the end", NOTHING),
            Some(answer) => to.put_answer("item", answer),
        }
        put_rest(&mut to, "into_remaining_units()", merger.clone().into_remaining_units());
        if item.is_none() {
            return to;
        }
    }
}
