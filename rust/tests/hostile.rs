//! Sources that break the laws of their traits: the results may be any, and each call returns without harm. With debug assertions the
//! trusted mode tests what it takes as proved.
mod common;

use common::Chance;
use noddychest::encode_unicode::{CharExt, IterExt, Utf16Char, Utf8Char};
use noddychest::{Encoding, PieceTable, Recoder, Status};
use std::borrow::Borrow;
use std::cell::Cell;
use std::panic::{catch_unwind, AssertUnwindSafe};

/// It ends now and then and goes on, and its `size_hint` is what chance gives.
struct Liar<T> {
    chance: Chance,
    left: usize,
    make: fn(&mut Chance) -> T,
    panics: bool,
}

impl<T> Iterator for Liar<T> {
    type Item = T;

    fn next(&mut self) -> Option<T> {
        self.left = self.left.checked_sub(1)?;
        match self.chance.below(8) {
            0 => None,
            1 if self.panics => panic!("the source breaks off"),
            _ => Some((self.make)(&mut self.chance)),
        }
    }

    fn size_hint(&self) -> (usize, Option<usize>) {
        let hints = [(0, None), (usize::MAX, Some(0)), (7, Some(3)), (usize::MAX, None), (0, Some(usize::MAX))];
        hints[self.left % hints.len()]
    }
}

fn liar<T>(seed: u64, make: fn(&mut Chance) -> T, panics: bool) -> Liar<T> {
    Liar { chance: Chance(seed), left: 60, make, panics }
}

/// Asks on after the end, and after a panic.
fn asked<T>(mut it: impl Iterator<Item = T>) -> Vec<T> {
    let mut all = Vec::new();
    for _ in 0..200 {
        if let Ok(Some(item)) = catch_unwind(AssertUnwindSafe(|| it.next())) {
            all.push(item);
        }
        let _ = it.size_hint();
    }
    all
}

fn byte(chance: &mut Chance) -> u8 {
    chance.bytes(4).first().copied().unwrap_or(0xE2)
}

fn unit(chance: &mut Chance) -> u16 {
    chance.units(3).first().copied().unwrap_or(0xD83D)
}

#[test]
fn sources_that_lie() {
    std::panic::set_hook(Box::new(|_| ()));
    for seed in 0..300 {
        let panics = seed % 2 == 0;
        for c in asked(liar(seed, byte, panics).to_utf8chars()).into_iter().flatten() {
            assert!(std::str::from_utf8(c.as_str().as_bytes()).is_ok());
        }
        for c in asked(liar(seed, unit, panics).to_utf16chars()).into_iter().flatten() {
            assert!(String::from_utf16(&c).is_ok());
        }
        let text = asked(liar(seed, |chance| chance.char().to_utf8(), panics).to_bytes());
        assert!(text.len() <= 4 * 60);
        let units = asked(liar(seed, |chance| chance.char().to_utf16(), panics).to_units());
        assert!(units.len() <= 2 * 60);
    }
    let _ = std::panic::take_hook();
}

/// A merger that has ended stays ended, also where its source goes on.
#[test]
fn mergers_are_fused() {
    for seed in 0..300 {
        let mut merger = liar(seed, byte, false).to_utf8chars();
        assert!(merger.by_ref().count() <= 60);
        assert!((0..60).all(|_| merger.next().is_none()));
    }
}

/// Another byte each time that it is asked for.
struct Turning(Cell<u8>);

impl Borrow<u8> for Turning {
    fn borrow(&self) -> &u8 {
        let byte = self.0.get().wrapping_add(0x4F);
        self.0.set(byte);
        // (a leak each time: a byte that lives as long as it has to)
        Box::leak(Box::new(byte))
    }
}

#[test]
fn items_that_change() {
    for first in 0..=255 {
        let items = (0..20).map(|k| Turning(Cell::new(first ^ k)));
        for c in items.to_utf8chars().flatten() {
            assert!(std::str::from_utf8(c.as_bytes()).is_ok());
        }
    }
}

#[test]
fn collections_of_liars() {
    for seed in 0..100 {
        let chars: Vec<Utf8Char> = (0..20).map(|k| Chance(seed + k).char().to_utf8()).collect();
        let text: String = chars.iter().collect();
        let bytes: Vec<u8> = chars.iter().collect();
        assert_eq!(text.as_bytes(), bytes);
        let units: Vec<u16> = chars.iter().map(|c| Utf16Char::from(*c)).collect();
        assert_eq!(String::from_utf16(&units).ok(), Some(text));
    }
}

#[test]
fn calls_out_of_bounds_panic() {
    let outcome = |call: fn()| catch_unwind(call).is_err();
    std::panic::set_hook(Box::new(|_| ()));
    assert!(outcome(|| assert_eq!(noddychest::parts::split_ascii(b"a", 0x80).count(), 1)));
    assert!(outcome(|| PieceTable::new(b"ab").replace(1..3, b"")));
    #[allow(clippy::reversed_empty_ranges)]
    {
        assert!(outcome(|| PieceTable::new(b"ab").replace(2..1, b"")));
    }
    assert!(outcome(|| assert_eq!('€'.to_utf8().to_slice(&mut [0; 2]), 3)));
    assert!(outcome(|| assert_eq!('😀'.to_utf16().to_slice(&mut [0; 1]), 2)));
    let _ = std::panic::take_hook();
}

/// Transcoding into room of each size, also none.
#[test]
fn rooms_of_all_sizes() {
    let mut chance = Chance(9);
    for _ in 0..200 {
        let text = chance.bytes(40);
        for room in 0..12 {
            let mut recoder = Recoder::new(Encoding::Utf8, Encoding::Utf16Le);
            let (mut out, mut rest) = (vec![0; room], &text[..]);
            for _ in 0..200 {
                let did = recoder.feed(rest, &mut out);
                assert!(did.read <= rest.len() && did.written <= room);
                rest = &rest[did.read..];
                if did.status == Status::Done || (did.read == 0 && did.written == 0) {
                    break;
                }
            }
        }
    }
}

/// A table of edited bytes is that of the bytes, whatever was put where.
#[test]
fn tables_stay_those_of_their_bytes() {
    let mut chance = Chance(5);
    let mut table = PieceTable::new(b"");
    for _ in 0..2000 {
        let len = table.bytes().len();
        let (a, b) = (chance.below(len + 1), chance.below(len + 1));
        let with = chance.bytes(9);
        table.replace(a.min(b)..a.max(b), &with);
        assert!(table.pieces().eq(noddychest::pieces(table.bytes())));
        if table.bytes().len() > 200 {
            table.replace(0..150, b"");
        }
    }
    assert!(table.clone().pieces().rev().eq(table.pieces().rev()));
}
