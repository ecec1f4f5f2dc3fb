//! Pieces, compared with std's decoders and with the vectors of the repository.

mod common;

use common::{long_text_of, of_hex, of_units, of_utf8, rows, Chance, End, Told};
use noddychest::{units, Encoding, Fault, Piece};
use std::fmt::Debug;

/// What std says of UTF-8: each character, and each byte that is none of one.
fn by_std(bytes: &[u8]) -> Vec<(usize, usize, Option<char>)> {
    let (mut out, mut offset) = (Vec::new(), 0);
    for chunk in bytes.utf8_chunks() {
        for c in chunk.valid().chars() {
            out.push((offset, c.len_utf8(), Some(c)));
            offset += c.len_utf8();
        }
        for _ in chunk.invalid() {
            out.push((offset, 1, None));
            offset += 1;
        }
    }
    out
}

fn by_std_units(units: &[u16]) -> Vec<(usize, usize, Option<char>)> {
    let (mut out, mut offset) = (Vec::new(), 0);
    for answer in char::decode_utf16(units.iter().copied()) {
        let len = answer.as_ref().map_or(1, |c| c.len_utf16());
        out.push((offset, len, answer.ok()));
        offset += len;
    }
    out
}

fn seen(piece: Piece) -> (usize, usize, Option<char>) {
    if let Err(fault) = piece.result {
        assert_eq!(fault.range(), piece.range());
    }
    (piece.offset, piece.len, piece.char())
}

/// Compares the faults with the expected ones, by their offsets and kinds.
fn hold_told(faults: impl Iterator<Item = Fault>, want: &[Told], whole: &dyn Debug) {
    let want = want.iter().filter_map(|(at, len, answer)| answer.err().map(|kind| (*at..at + len, kind)));
    assert!(faults.map(|it| (it.range(), it.kind())).eq(want), "{whole:x?}");
}

fn hold_faults(bytes: &[u8]) {
    hold_told(noddychest::faults(bytes), &of_utf8(bytes, End::OfSlice), &bytes);
    assert!(noddychest::faults(bytes).eq(noddychest::pieces(bytes).filter_map(|it| it.fault())));
    let mut faults = noddychest::Faults::from(bytes);
    while let Some(fault) = faults.next() {
        assert_eq!((faults.offset(), faults.as_slice()), (fault.range().end, &bytes[fault.range().end..]));
        let left = faults.clone().count();
        assert!((0..=faults.size_hint().1.expect("a bound")).contains(&left));
    }
    assert_eq!((faults.next(), faults.offset(), faults.as_slice()), (None, bytes.len(), &[][..]));
}

fn hold_unit_faults(units: &[u16]) {
    hold_told(units::faults(units), &of_units(units), &units);
    let mut faults = units::Faults::from(units);
    while let Some(fault) = faults.next() {
        assert_eq!((faults.offset(), faults.as_slice()), (fault.range().end, &units[fault.range().end..]));
    }
    assert_eq!((faults.next(), faults.offset(), faults.size_hint()), (None, units.len(), (0, Some(0))));
}

/// Long text is scanned by SIMD: with a fault at any offset of some blocks, and at the end.
#[test]
fn faults_are_found_in_long_text() {
    let mut chance = Chance(10);
    for _ in 0..60 {
        let bytes = long_text_of(Encoding::Utf8, &mut chance, 3_000);
        hold_faults(&bytes);
        let units = long_text_of(Encoding::Utf16Le, &mut chance, 3_000);
        hold_unit_faults(&units.chunks_exact(2).map(|it| u16::from_le_bytes([it[0], it[1]])).collect::<Vec<_>>());
    }
    for at in 0..200 {
        let mut bytes = "aé€😀".repeat(20).into_bytes();
        bytes[at] = 0xFF;
        hold_faults(&bytes);
        hold_faults(&bytes[..at]);
        let mut units: Vec<u16> = "aé€😀".repeat(40).encode_utf16().collect();
        units[at] = 0xDC00;
        hold_unit_faults(&units);
        hold_unit_faults(&units[..at]);
    }
}

/// The offset of each number, and the number at each offset, by the pieces that std gives.
fn hold_numbers<T: std::fmt::Debug>(
    text: &[T],
    want: &[(usize, usize, Option<char>)],
    offset_of: impl Fn(&[T], usize) -> Option<usize>,
    number_of: impl Fn(&[T], usize) -> usize,
) {
    for number in [0, 1, want.len() / 2, want.len().saturating_sub(1), want.len(), want.len() + 1, usize::MAX] {
        assert_eq!(offset_of(text, number), want.get(number).map(|it| it.0), "{text:x?} {number}");
    }
    for at in [0, 1, 2, 3, text.len() / 2, text.len().saturating_sub(1), text.len(), text.len() + 1, usize::MAX] {
        assert_eq!(number_of(text, at), want.iter().filter(|it| it.0 < at).count(), "{text:x?} at {at}");
    }
}

/// Long text is scanned by SIMD: with an invalid byte at any offset of some blocks, and at the end.
#[test]
fn numbers_of_long_text() {
    let mut chance = Chance(12);
    for _ in 0..10 {
        let bytes = long_text_of(Encoding::Utf8, &mut chance, 12_000);
        let want = by_std(&bytes);
        hold_numbers(&bytes[..], &want, noddychest::offset_of, noddychest::number_of);
        for number in (0..want.len()).step_by(97) {
            assert_eq!(noddychest::offset_of(&bytes, number), Some(want[number].0), "{number}");
            assert_eq!(noddychest::number_of(&bytes, want[number].0), number);
            assert_eq!(noddychest::number_of(&bytes, want[number].0 + 1), number + 1);
        }
        assert_eq!(noddychest::char_count(&bytes), want.len());
    }
    let text = "aé€😀".repeat(900);
    for at in (0..150).chain(4_090..4_110).chain([text.len() - 1]) {
        let mut bytes = text.clone().into_bytes();
        bytes[at] = 0xFF;
        let want = by_std(&bytes);
        assert_eq!(noddychest::char_count(&bytes), want.len(), "{at}");
        assert_eq!(noddychest::number_of(&bytes, at), want.iter().filter(|it| it.0 < at).count(), "{at}");
        assert_eq!(noddychest::offset_of(&bytes, want.len() - 1), want.last().map(|it| it.0), "{at}");
    }
}

/// The address of a long text decides how many ASCII bytes are skipped before the scan, and changes no result.
#[test]
fn valid_up_to_wherever_a_text_lies() {
    let room = "a text of ASCII, ".repeat(300).into_bytes();
    for start in [0, 1, 15, 16, 31, 32, 33, 48, 63] {
        assert_eq!(noddychest::valid_up_to(&room[start..]), room.len() - start);
        for at in (0..100).step_by(3).chain(room.len() - start - 7..room.len() - start) {
            for other in [&b"\xFF"[..], b"\xC3", b"\xC3\xA9", b"\xF0\x9F\x98\x80", b"\xE2\x82a\xFF"] {
                let mut bytes = room.clone();
                let end = bytes.len().min(start + at + other.len());
                bytes.splice(start + at..end, other.iter().copied());
                let bytes = &bytes[start..];
                let valid = std::str::from_utf8(bytes).map_or_else(|error| error.valid_up_to(), str::len);
                assert_eq!(noddychest::valid_up_to(bytes), valid, "{start} {at} {other:x?}");
                assert_eq!(noddychest::faults(bytes).next().map(|it| it.offset()), Some(valid).filter(|it| *it < bytes.len()));
            }
        }
    }
}

fn hold_bytes(bytes: &[u8], chance: &mut Chance) {
    let want = by_std(bytes);
    assert!(noddychest::pieces(bytes).map(seen).eq(want.iter().copied()), "{bytes:x?}");
    assert!(noddychest::pieces(bytes).rev().map(seen).eq(want.iter().rev().copied()), "{bytes:x?} from the back");
    let valid = std::str::from_utf8(bytes).map_or_else(|error| error.valid_up_to(), |text| text.len());
    assert_eq!(noddychest::valid_up_to(bytes), valid, "{bytes:x?}");
    assert_eq!(noddychest::char_count(bytes), want.len(), "{bytes:x?}");
    assert_eq!(noddychest::first(bytes).map(seen), want.first().copied());
    assert_eq!(noddychest::last(bytes).map(seen), want.last().copied());
    hold_faults(bytes);
    hold_numbers(bytes, &want, noddychest::offset_of, noddychest::number_of);
    for at in 0..bytes.len() + 2 {
        let before = want.iter().map(|it| it.0).chain([bytes.len()]).filter(|it| *it <= at).max();
        assert_eq!(Some(noddychest::boundary_before(bytes, at)), before, "{bytes:x?} before {at}");
    }
    let (mut pieces, mut front, mut back) = (noddychest::pieces(bytes), 0, want.len());
    while front < back {
        let (least, most) = pieces.size_hint();
        assert!(least <= back - front && Some(back - front) <= most, "{bytes:x?}");
        assert_eq!(pieces.as_slice(), &bytes[want[front].0..want[back - 1].0 + want[back - 1].1]);
        assert_eq!(pieces.offset(), want[front].0);
        if chance.below(2) == 0 {
            assert_eq!(pieces.next().map(seen), Some(want[front]), "{bytes:x?}");
            front += 1;
        } else {
            back -= 1;
            assert_eq!(pieces.next_back().map(seen), Some(want[back]), "{bytes:x?}");
        }
    }
    assert_eq!((pieces.next(), pieces.next_back(), pieces.next()), (None, None, None));
}

#[test]
fn bytes_are_split_as_std_does() {
    let mut chance = Chance(1);
    for _ in 0..100_000 {
        let bytes = chance.bytes(24);
        hold_bytes(&bytes, &mut chance);
    }
}

#[test]
fn all_short_inputs_are_split_as_std_does() {
    let mut chance = Chance(2);
    hold_bytes(&[], &mut chance);
    for a in 0..=255 {
        hold_bytes(&[a], &mut chance);
        for b in 0..=255 {
            hold_bytes(&[a, b], &mut chance);
        }
    }
    // The bytes that bound the ranges of section 4 of RFC 3629, and one to each side.
    let bounds: [u8; 22] = [
        0x00, 0x7F, 0x80, 0x8F, 0x90, 0x9F, 0xA0, 0xBF, 0xC0, 0xC1, 0xC2, 0xDF, 0xE0, 0xE1, 0xEC, 0xED, 0xEE, 0xEF, 0xF0, 0xF3,
        0xF4, 0xF5,
    ];
    for a in bounds {
        for b in bounds {
            for c in bounds {
                for d in bounds {
                    hold_bytes(&[a, b, c, d], &mut chance);
                }
            }
        }
    }
}

#[test]
fn all_characters_are_one_piece() {
    for c in '\0'..=char::MAX {
        let (mut bytes, mut units) = ([0; 4], [0; 2]);
        let bytes = c.encode_utf8(&mut bytes).as_bytes();
        assert_eq!(noddychest::first(bytes).map(seen), Some((0, bytes.len(), Some(c))));
        assert_eq!(noddychest::last(bytes).map(seen), Some((0, bytes.len(), Some(c))));
        let units = c.encode_utf16(&mut units);
        assert_eq!(units::first(units).map(seen), Some((0, units.len(), Some(c))));
        assert_eq!(units::last(units).map(seen), Some((0, units.len(), Some(c))));
    }
}

#[test]
fn units_are_split_as_std_does() {
    let mut chance = Chance(3);
    for _ in 0..100_000 {
        let units = chance.units(12);
        let want = by_std_units(&units);
        assert!(units::pieces(&units).map(seen).eq(want.iter().copied()), "{units:x?}");
        assert!(units::pieces(&units).rev().map(seen).eq(want.iter().rev().copied()), "{units:x?} from the back");
        hold_unit_faults(&units);
        let fault = want.iter().find(|it| it.2.is_none());
        assert_eq!(units::valid_up_to(&units), fault.map_or(units.len(), |it| it.0), "{units:x?}");
        assert_eq!(units::char_count(&units), want.len(), "{units:x?}");
        hold_numbers(&units[..], &want, units::offset_of, units::number_of);
        for at in 0..units.len() + 2 {
            let before = want.iter().map(|it| it.0).chain([units.len()]).filter(|it| *it <= at).max();
            assert_eq!(Some(units::boundary_before(&units, at)), before, "{units:x?} before {at}");
            let after = want.iter().map(|it| it.0).chain([units.len()]).find(|it| *it >= at);
            assert_eq!(units::boundary_after(&units, at), after.unwrap_or(units.len()), "{units:x?} after {at}");
        }
        let mut pieces = units::pieces(&units);
        let mut offset = 0;
        while let Some(piece) = pieces.next() {
            offset += piece.len;
            assert_eq!((pieces.as_slice(), pieces.offset()), (&units[offset..], offset));
            let (least, most) = pieces.size_hint();
            let left = pieces.clone().count();
            assert!(least <= left && Some(left) <= most);
        }
    }
}

/// A piece as the vectors tell it.
fn told(piece: Option<Piece>) -> String {
    match piece.map(|it| (it, it.result)) {
        None => "none".to_string(),
        Some((it, Ok(c))) => format!("{} {} {:06x}", it.offset, it.len, u32::from(c)),
        Some((it, Err(fault))) => format!("{} {} {}", it.offset, it.len, fault.kind().name()),
    }
}

fn walked(pieces: &mut dyn DoubleEndedIterator<Item = Piece>, word: &str) -> String {
    let steps = word.chars().map(|end| told(if end == 'F' { pieces.next() } else { pieces.next_back() }));
    steps.collect::<Vec<_>>().join(";")
}

fn run(pieces: impl Iterator<Item = Piece>) -> String {
    pieces.map(|it| told(Some(it))).collect::<Vec<_>>().join(";")
}

#[test]
fn vectors_of_bytes() {
    for row in rows("bytes.txt") {
        let bytes = of_hex(&row[0]);
        assert_eq!(run(noddychest::pieces(&bytes)), row[1], "{}", row[0]);
        assert_eq!(walked(&mut noddychest::pieces(&bytes), &row[3]), row[4], "{} {}", row[0], row[3]);
        let streamed = noddychest::pieces(&bytes).map(|it| noddychest::streamed_at(&bytes, it.offset));
        let streamed = streamed.map(|it| told(it).split(' ').next_back().unwrap_or_default().to_string());
        assert_eq!(streamed.collect::<Vec<_>>().join(";"), row[2], "{}, byte by byte", row[0]);
    }
}

#[test]
fn vectors_of_units() {
    for row in rows("units.txt") {
        let units: Vec<u16> = of_hex(&row[0]).chunks(2).map(|it| u16::from_be_bytes([it[0], it[1]])).collect();
        assert_eq!(run(units::pieces(&units)), row[1], "{}", row[0]);
        assert_eq!(walked(&mut units::pieces(&units), &row[2]), row[3], "{} {}", row[0], row[2]);
    }
}
