//! Shards of a few bytes, by more threads than there are CPUs: the results are those of one thread.

use super::{at_once, check_by, recode_by, repairing, Line};
use crate::{faults, io, recode, recode_repaired, Encoding, Repair};
use std::num::NonZeroUsize;
use std::panic::{catch_unwind, AssertUnwindSafe};

/// Steps of splitmix64.
fn next(state: &mut u64) -> usize {
    *state = state.wrapping_add(0x9E37_79B9_7F4A_7C15);
    let z = (*state ^ (*state >> 30)).wrapping_mul(0xBF58_476D_1CE4_E5B9);
    let z = (z ^ (z >> 27)).wrapping_mul(0x94D0_49BB_1331_11EB);
    (z ^ (z >> 31)) as usize
}

/// Bytes that begin and continue characters, or do not, in UTF-8 and as halves of units.
fn damaged(state: &mut u64) -> Vec<u8> {
    const ODD: [u8; 16] = [0x41, 0x7F, 0x80, 0x9F, 0xA0, 0xBF, 0xC2, 0xE0, 0xED, 0xF0, 0xF4, 0xFF, 0xD8, 0xDB, 0xDC, 0xDF];
    const TEXTS: [&[u8]; 6] = ["é".as_bytes(), "€".as_bytes(), "😀".as_bytes(), b"\x3D\xD8\x00\xDE", b"\xD8\x3D\xDE\x00", b"a\0"];
    let (len, mut out) = (next(state) % 120, Vec::new());
    while out.len() < len {
        match next(state) % 3 {
            0 => out.push(ODD[next(state) % 16]),
            _ => out.extend(TEXTS[next(state) % 6]),
        }
    }
    out
}

fn hold(bytes: &[u8], jobs: usize, size: usize) {
    let jobs = NonZeroUsize::new(jobs);
    for &from in Encoding::ALL {
        for &to in Encoding::ALL {
            let made = recode_by(from, to, bytes, jobs, size, |shard, out| out.extend(recode(from, to, shard)));
            assert_eq!(made, recode(from, to, bytes), "{from} {to} {size} {bytes:x?}");
            for repair in [Repair::DROP, Repair::WINDOWS_1252] {
                let made = recode_by(from, to, bytes, jobs, size, repairing(from, to, repair));
                assert_eq!(made, recode_repaired(from, to, bytes, repair), "{from} {to} {repair:?} {size} {bytes:x?}");
            }
        }
        let found = check_by(from, bytes, jobs, size).into_iter().map(|it| (it.range(), it.kind()));
        if from == Encoding::Utf8 {
            assert!(found.eq(faults(bytes).map(|it| (it.range(), it.kind()))), "{size} {bytes:x?}");
        } else {
            let want = io::faults(bytes, from).map(|it| it.expect("a slice gives its bytes"));
            let want = want.map(|it| (it.range().start as usize..it.range().end as usize, it.kind()));
            assert!(found.eq(want), "{from} {size} {bytes:x?}");
        }
    }
}

#[test]
fn small_shards() {
    let mut state = 17;
    for round in 0..300 {
        let bytes = damaged(&mut state);
        let size = [1, 2, 6, 7, 8, 9, 13, 32, 1000][round % 9];
        hold(&bytes, 1 + round % 5, size);
    }
}

/// A text at each offset near the end of a shard.
#[test]
fn every_place_of_a_character() {
    for at in 0..24 {
        for text in ["é", "€", "😀"] {
            let mut bytes = vec![b'.'; at];
            bytes.extend(text.as_bytes());
            bytes.extend(text.as_bytes()[..text.len() - 1].iter().chain(b"AB\xF0A"));
            hold(&bytes, 2, 8);
        }
    }
}

/// A thread that ends in the middle: the others end too, and the call does not go on.
#[test]
fn a_panic_ends_all() {
    let bytes = [b'a'; 1000];
    let line = Line::new(Encoding::Utf8, &bytes, 10, 0);
    let told = catch_unwind(AssertUnwindSafe(|| {
        at_once(4, || {
            while let Some(shard) = line.take() {
                assert!(shard.number != 7, "the eighth");
                shard.in_turn(|count| *count += 1);
            }
        });
    }));
    assert!(told.is_err());
    assert!(line.take().is_none() && line.end() <= 7);
}
