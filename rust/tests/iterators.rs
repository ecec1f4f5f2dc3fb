//! Each iterator compared with a list of what it gives: asked from both ends by turns, by all that skips, and for its bounds.

mod common;

use common::{long_text_of, of_utf8, Chance, End};
use noddychest::encode_unicode::{CharExt, IterExt, SliceExt, StrExt};
use noddychest::{faults, parts, pieces, units, Encoding, Fault, PieceTable};
use std::fmt::Debug;

/// The number of what is left is within the bounds.
fn bounds(it: &impl Iterator, left: usize) {
    let (least, most) = it.size_hint();
    assert!(least <= left && most.map_or(true, |most| left <= most), "{left} are left, and not {least} to {most:?}");
}

/// Finds the item after `n` others.
fn after<T>(mut n: usize) -> impl FnMut(&T) -> bool {
    move |_| n.checked_sub(1).map(|less| n = less).is_none()
}

/// From both ends by turns: single items, and items after some that are passed.
fn both_ends<I: DoubleEndedIterator + Clone>(all: I, seed: u64)
where
    I::Item: PartialEq + Debug + Clone,
{
    let (mut list, mut chance) = (all.clone().collect::<Vec<_>>().into_iter(), Chance(seed));
    let mut it = all;
    while list.len() > 0 {
        bounds(&it, list.len());
        let (n, kept) = (chance.below(4), it.clone());
        match chance.below(8) {
            0 => assert_eq!(it.next(), list.next()),
            1 => assert_eq!(it.next_back(), list.next_back()),
            2 => assert_eq!(it.nth(n), list.nth(n)),
            3 => assert_eq!(it.nth_back(n), list.nth_back(n)),
            4 => assert_eq!(it.find(after(n)), list.find(after(n))),
            5 => assert_eq!(it.rfind(after(n)), list.rfind(after(n))),
            6 => {
                assert!(it.clone().step_by(n + 1).eq(list.clone().step_by(n + 1)) && it.clone().skip(n).eq(list.clone().skip(n)))
            }
            _ => assert!(it.clone().rev().skip(n).eq(list.clone().rev().skip(n)) && it.clone().last() == list.clone().last()),
        }
        assert!(kept.count() >= list.len());
        assert_eq!(it.clone().count(), list.len());
    }
    assert!((0..3).all(|_| it.next().is_none() && it.next_back().is_none() && it.nth(1).is_none()));
    bounds(&it, 0);
}

/// From the front alone.
fn one_end<I: Iterator>(mut it: I) {
    let mut left = Vec::new();
    loop {
        left.push(it.size_hint());
        if it.next().is_none() {
            break;
        }
    }
    for (count, (least, most)) in left.into_iter().rev().enumerate() {
        assert!(least <= count && most.map_or(true, |most| count <= most));
    }
}

/// Faults of long inputs from both ends, in any order: each comes once, is what it is from the front, and what is left lies between the two
/// that came last.
fn faults_by_turns<T: Copy>(bytes: &[T], all: &[Fault], mut it: impl DoubleEndedIterator<Item = Fault>, chance: &mut Chance) {
    let mut list = all.iter().copied();
    let odds = 1 + chance.below(9);
    loop {
        let is_front = chance.below(10) < odds;
        let (is, want) = if is_front { (it.next(), list.next()) } else { (it.next_back(), list.next_back()) };
        assert_eq!(is, want, "of {} bytes, {list:?} left", bytes.len());
        if want.is_none() {
            break;
        }
    }
    assert!(it.next().is_none() && it.next_back().is_none());
}

#[test]
fn faults_come_once_from_both_ends() {
    let mut chance = Chance(77);
    for round in 0..200 {
        let len = [10, 100, 600, 3_000, 20_000][round % 5];
        let bytes = long_text_of(Encoding::Utf8, &mut chance, len);
        let kinds =
            of_utf8(&bytes, End::OfSlice).into_iter().filter_map(|(at, _, it)| it.err().map(|kind| Fault::new(at, 1, kind)));
        let all: Vec<Fault> = kinds.collect();
        assert!(faults(&bytes).eq(all.iter().copied()));
        assert!(faults(&bytes).rev().eq(all.iter().rev().copied()));
        faults_by_turns(&bytes, &all, faults(&bytes), &mut chance);
        let units: Vec<u16> = long_text_of(Encoding::Utf16Le, &mut chance, len)
            .chunks_exact(2)
            .map(|it| u16::from_le_bytes([it[0], it[1]]))
            .collect();
        let all: Vec<Fault> = units::pieces(&units).filter_map(|piece| piece.fault()).collect();
        assert!(units::faults(&units).rev().eq(all.iter().rev().copied()));
        faults_by_turns(&units, &all, units::faults(&units), &mut chance);
    }
}

/// All that the order of calls can be, over short inputs of the bytes that depend on one another; and what is left after each.
#[test]
fn faults_in_each_order() {
    const BYTES: [u8; 8] = [b'A', 0x80, 0xBF, 0xC3, 0xE0, 0xED, 0xF0, 0xFF];
    for number in 0..8_usize.pow(4) {
        let bytes: Vec<u8> = (0..4).map(|k| BYTES[number >> (3 * k) & 7]).collect();
        let all: Vec<Fault> = pieces(&bytes).filter_map(|piece| piece.fault()).collect();
        for order in 0..1_usize << all.len() {
            let (mut it, mut front, mut back) = (faults(&bytes), 0, all.len());
            for k in 0..all.len() {
                if order >> k & 1 == 0 {
                    assert_eq!(it.next(), Some(all[front]));
                    front += 1;
                } else {
                    back -= 1;
                    assert_eq!(it.next_back(), Some(all[back]));
                }
                let begin = front.checked_sub(1).map_or(0, |it| all[it].range().end);
                let end = all.get(back).map_or(bytes.len(), |it| it.offset());
                assert_eq!((it.offset(), it.as_slice()), (begin, &bytes[begin..end]));
            }
            assert_eq!((it.next_back(), it.next()), (None, None));
        }
    }
}

/// Faults are found ahead, in blocks that begin at a fault: one that lies across the end of a block is what it is by all that follows.
#[test]
fn faults_at_the_ends_of_blocks() {
    const CUT: [&[u8]; 9] = [
        b"\xC3A",
        b"\xE2\x82A",
        b"\xE2\x82\xACA",
        b"\xE0\x80\x80A",
        b"\xED\xA0\x80A",
        b"\xF0\x9F\x98A",
        b"\xF0\x9F\x98\x80A",
        b"\xF0\x80\x80\x80A",
        b"\xF4\x90\x80\x80A",
    ];
    for cut in CUT {
        for len in [128, 256, 512, 4096] {
            for before in len - 5..len + 2 {
                // (a second fault near the first makes the next block longer)
                let block = [&b"\xFFa\xFF"[..], &b"a".repeat(before - 3), cut].concat();
                let bytes = [b"\xFF", &b"a".repeat(before - 1)[..], cut, &block, &block, &block, &block, &block, &block].concat();
                let kinds = of_utf8(&bytes, End::OfSlice)
                    .into_iter()
                    .filter_map(|(at, _, it)| it.err().map(|kind| Fault::new(at, 1, kind)));
                assert!(faults(&bytes).eq(kinds), "{cut:x?} after {before}");
            }
        }
    }
}

/// The first fault costs nothing of what follows it, however much that is.
#[test]
fn faults_are_found_little_ahead() {
    let mut bytes = b"a".repeat(20_000_000);
    bytes[3] = 0xFF;
    for _ in 0..10_000 {
        assert_eq!(faults(&bytes).next().map(|it| it.offset()), Some(3));
    }
}

/// What is text at the end is passed in blocks: no call goes over all of it again.
#[test]
fn faults_from_the_back_are_not_quadratic() {
    let mut bytes = "text".repeat(500_000).into_bytes();
    bytes[0] = 0xFF;
    assert_eq!(faults(&bytes).next_back().map(|it| it.offset()), Some(0));
    let bytes = b"a\xFF".repeat(300_000);
    assert_eq!(faults(&bytes).rev().count(), 300_000);
    let mut it = faults(&bytes);
    while it.next().and_then(|_| it.next_back()).is_some() {}
    assert!(it.as_slice().is_empty());
}

#[test]
fn iterators_are_lists_of_their_items() {
    let mut chance = Chance(21);
    for seed in 0..3_000 {
        let (bytes, of_units) = (chance.bytes(24), chance.units(12));
        let text = String::from_utf8_lossy(&bytes).into_owned();
        // (why a byte is invalid depends on what is left)
        both_ends(pieces(&bytes).map(|it| (it.range(), it.char())), seed);
        both_ends(units::pieces(&of_units).map(|it| (it.range(), it.char())), seed);
        both_ends(bytes.utf8char_indices().map(|(at, it, len)| (at, it.ok(), len)), seed);
        both_ends(of_units.utf16char_indices().map(|(at, it, len)| (at, it.ok(), len)), seed);
        both_ends(text.utf8chars(), seed);
        both_ends(StrExt::utf8char_indices(&*text), seed);
        both_ends(text.utf16chars(), seed);
        both_ends(StrExt::utf16char_indices(&*text), seed);
        both_ends(PieceTable::new(&bytes).pieces(), seed);
        both_ends(parts::split_ascii(&bytes, b'A').map(|it| (it.start(), it.as_bytes())), seed);
        both_ends(parts::lines(&bytes).map(|it| (it.start(), it.as_bytes())), seed);
        // (and of these by all: each is whole what it is from the front)
        both_ends(noddychest::faults(&bytes), seed);
        both_ends(units::faults(&of_units), seed);
        one_end(bytes.iter().to_utf8chars());
        one_end(of_units.iter().to_utf16chars());
        one_end(text.utf8chars().to_bytes());
        one_end(text.utf16chars().to_units());
        let c = chance.char();
        assert_eq!((c.iter_utf8_bytes().len(), c.iter_utf16_units().len()), (c.len_utf8(), c.len_utf16()));
        one_end(c.iter_utf8_bytes());
        one_end(c.iter_utf16_units());
    }
}
