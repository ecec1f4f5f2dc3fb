//! Compares the crate with `encode_unicode` on random inputs: how many were compared, and how many differ.
//!
//! usage: `beside SEED COUNT`; the last line is `N passed, M failed`

#[path = "../tests/common/mod.rs"]
mod common;

use common::Chance;
use encode_unicode::error::Utf8ErrorKind;
use encode_unicode::{CharExt, IterExt, SliceExt};
use noddychest::{first, pieces, streamed_at, units, Piece};
use std::fmt::Debug;

/// Offset, length, and the character or the name of what is wrong.
type Answer = (usize, usize, Result<char, String>);

fn ours(piece: Piece) -> Answer {
    (
        piece.offset,
        piece.len,
        piece
            .result
            .map_err(|fault| fault.kind().name().to_string()),
    )
}

fn named<K: Debug>(kind: K) -> String {
    format!("{kind:?}")
}

fn kind_at(bytes: &[u8], offset: usize) -> Result<char, String> {
    ours(streamed_at(bytes, offset).expect("a piece")).2
}

/// What differs for these bytes.
fn of_bytes(bytes: &[u8]) -> Option<&'static str> {
    let theirs = || {
        bytes.utf8char_indices().map(|(at, it, len)| {
            (
                at,
                len,
                it.map(|c| c.to_char()).map_err(|e| named(e.kind())),
            )
        })
    };
    if !pieces(bytes).map(ours).eq(theirs()) {
        return Some("forward");
    }
    let merged = bytes
        .iter()
        .to_utf8chars()
        .map(|it| it.map(|c| c.to_char()).map_err(|e| named(e.kind())));
    if !pieces(bytes).map(|it| kind_at(bytes, it.offset)).eq(merged) {
        return Some("byte by byte");
    }
    let start = char::from_utf8_slice_start(bytes).map_err(|e| e.kind());
    let same = match (first(bytes), start) {
        (None, Err(kind)) => kind == Utf8ErrorKind::TooFewBytes,
        (Some(piece), Ok((c, len))) => ours(piece) == (0, len, Ok(c)),
        (Some(piece), Err(kind)) => ours(piece) == (0, 1, Err(named(kind))),
        _ => false,
    };
    if !same {
        return Some("the first");
    }
    // (theirs panics where only continuation bytes are left)
    let has_front = bytes.first().is_some_and(|it| it & 0xC0 != 0x80);
    let back = || pieces(bytes).rev().map(ours);
    if has_front
        && !back()
            .map(|it| (it.0, it.1, it.2))
            .eq(bytes.utf8char_indices().rev().map(|(at, it, len)| {
                let is_char = it.is_ok();
                (
                    at + usize::from(!is_char),
                    len,
                    it.map(|c| c.to_char()).map_err(|e| named(e.kind())),
                )
            }))
    {
        return Some("backward");
    }
    None
}

fn of_units(these: &[u16]) -> Option<&'static str> {
    let theirs = these
        .utf16char_indices()
        .map(|(at, it, len)| (at, len, it.map(|c| c.to_char()).map_err(named)));
    if !units::pieces(these).map(ours).eq(theirs) {
        return Some("units forward");
    }
    let merged = these
        .iter()
        .to_utf16chars()
        .map(|it| it.map(|c| c.to_char()).map_err(named));
    (!units::pieces(these).map(|it| ours(it).2).eq(merged)).then_some("units one by one")
}

fn main() {
    let words: Vec<u64> = std::env::args()
        .skip(1)
        .filter_map(|it| it.parse().ok())
        .collect();
    let [seed, count] = words[..] else {
        eprintln!("usage: beside SEED COUNT");
        std::process::exit(2);
    };
    let (mut chance, mut passed, mut failed) = (Chance(seed), 0, 0);
    let mut tally = |differs: Option<&str>, input: &dyn Debug| match differs {
        None => passed += 1,
        Some(what) => {
            failed += 1;
            if failed <= 20 {
                println!("beside: {what}: {input:x?}");
            }
        }
    };
    for _ in 0..count {
        let bytes = chance.bytes(24);
        tally(of_bytes(&bytes), &bytes);
        let these = chance.units(12);
        tally(of_units(&these), &these);
    }
    println!("{passed} passed, {failed} failed");
    std::process::exit(i32::from(failed > 0));
}
