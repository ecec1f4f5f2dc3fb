//! Lines and columns, compared with the pieces of all that was passed, counted by std's decoders.

mod common;

use common::Chance;
use noddychest::{Encoding, Position};

/// The position after UTF-8, by std: each invalid byte is one.
fn by_std(bytes: &[u8]) -> (u64, u64, u64) {
    let (mut line, mut column, mut byte_column) = (1, 1, 1);
    for chunk in bytes.utf8_chunks() {
        for c in chunk.valid().chars() {
            (line, column, byte_column) = match c {
                '\n' => (line + 1, 1, 1),
                _ => (line, column + 1, byte_column + c.len_utf8() as u64),
            };
        }
        column += chunk.invalid().len() as u64;
        byte_column += chunk.invalid().len() as u64;
    }
    (line, column, byte_column)
}

/// The position after UTF-16 in bytes, by std: each lone surrogate is one, and so is an odd byte.
fn by_std_units(bytes: &[u8], from: fn([u8; 2]) -> u16) -> (u64, u64, u64) {
    let units = bytes.chunks_exact(2).map(|it| from([it[0], it[1]]));
    let (mut line, mut column, mut byte_column) = (1, 1, 1);
    for answer in char::decode_utf16(units) {
        (line, column, byte_column) = match answer {
            Ok('\n') => (line + 1, 1, 1),
            Ok(c) => (line, column + 1, byte_column + 2 * c.len_utf16() as u64),
            Err(_) => (line, column + 1, byte_column + 2),
        };
    }
    let odd = (bytes.len() % 2) as u64;
    (line, column + odd, byte_column + odd)
}

fn expected(encoding: Encoding, bytes: &[u8]) -> (u64, u64, u64) {
    match encoding {
        Encoding::Utf8 => by_std(bytes),
        Encoding::Utf16Le => by_std_units(bytes, u16::from_le_bytes),
        _ => by_std_units(bytes, u16::from_be_bytes),
    }
}

fn told(at: &Position) -> (u64, u64, u64) {
    (at.line(), at.column(), at.byte_column())
}

/// Damaged text with line feeds, some of them in two units of UTF-16.
fn lines(chance: &mut Chance, encoding: Encoding, most: usize) -> Vec<u8> {
    let mut out = Vec::new();
    let len = chance.below(most + 1);
    while out.len() < len {
        match (chance.below(6), encoding) {
            (0, Encoding::Utf8) => out.push(b'\n'),
            (0, Encoding::Utf16Le) => out.extend(b"\n\0"),
            (0, _) => out.extend(b"\0\n"),
            (1, _) => out.extend(chance.bytes(4)),
            (_, Encoding::Utf8) => out.extend(chance.bytes(20)),
            (2, _) => out.extend([[0x3D, 0xD8, 0x00, 0xDE], [0xD8, 0x3D, 0xDE, 0x00]][chance.below(2)]),
            _ => out.extend([b"\0a", b"a\0", b"\n\n", b"\xD8\xDC"][chance.below(4)]),
        }
    }
    out
}

const ENCODINGS: [Encoding; 3] = [Encoding::Utf8, Encoding::Utf16Le, Encoding::Utf16Be];

#[test]
fn positions_do_not_depend_on_the_parts() {
    let mut chance = Chance(41);
    for round in 0..3000 {
        let encoding = ENCODINGS[round % 3];
        let bytes = lines(&mut chance, encoding, if round % 100 == 0 { 1500 } else { 24 });
        let (mut at, mut passed) = (Position::new(encoding), 0);
        while passed < bytes.len() {
            let end = bytes.len().min(passed + chance.below(if round % 2 == 0 { 4 } else { 400 }));
            at.advance(&bytes[passed..end]);
            passed = end;
            if chance.below(4) > 0 || passed == bytes.len() {
                assert_eq!(told(&at), expected(encoding, &bytes[..passed]), "{encoding:?} {:x?} up to {passed}", bytes);
            }
        }
    }
}

#[test]
fn each_division_of_short_inputs() {
    let alphabet = [0x0A, 0x00, 0xD8, 0xDC, 0xF0, 0x9F, 0x41];
    for number in (0..7_usize.pow(5)).step_by(3) {
        let bytes: Vec<u8> = (0..5).map(|k| alphabet[number / 7_usize.pow(k) % 7]).collect();
        let encoding = ENCODINGS[number / 3 % 3];
        for first in 0..=5 {
            for second in first..=5 {
                let mut at = Position::new(encoding);
                at.advance(&bytes[..first]);
                at.advance(&bytes[first..second]);
                at.advance(&[]);
                at.advance(&bytes[second..]);
                assert_eq!(told(&at), expected(encoding, &bytes), "{encoding:?} {bytes:x?} at {first}, {second}");
            }
        }
    }
}

#[test]
fn faults_have_their_positions() {
    let mut chance = Chance(42);
    for round in 0..2000 {
        let bytes = lines(&mut chance, Encoding::Utf8, if round % 50 == 0 { 5000 } else { 60 });
        let found: Vec<_> = noddychest::positions(&bytes).map(|(at, fault)| (told(&at), fault)).collect();
        let want: Vec<_> = noddychest::faults(&bytes).map(|fault| (by_std(&bytes[..fault.offset()]), fault)).collect();
        assert_eq!(found, want, "{bytes:x?}");
        let mut positions = noddychest::positions(&bytes);
        positions.next();
        assert_eq!(positions.clone().count(), want.len().saturating_sub(1));
        assert!(want.len() <= noddychest::positions(&bytes).size_hint().1.expect("a bound"));
    }
}

/// Each copy continues by itself, in a thread of its own.
#[test]
fn copies_are_apart() {
    let mut at = Position::new(Encoding::Utf8);
    at.advance(b"a\n\xF0\x9F\x98");
    let ends = [&b"\x80"[..], b"A", b"\n"];
    let threads = ends.map(|end| {
        let mut copy = at.clone();
        std::thread::spawn(move || {
            copy.advance(end);
            told(&copy)
        })
    });
    let found = threads.map(|it| it.join().unwrap());
    assert_eq!((found, told(&at)), ([(2, 2, 5), (2, 5, 5), (3, 1, 1)], (2, 4, 4)));
}
