//! Asks the crate and the assembly for each input of one to four bytes: the first and the last piece, and how many bytes are valid. std
//! judges the last of these, and each character.
//!
//! usage: `every [JOBS]`; the last line is `N passed, M failed`, where N counts inputs.

use noddychest::Piece;
use std::ops::Range;
use std::sync::atomic::{AtomicU64, Ordering};
use std::{env, str, thread};

/// As C has it.
#[derive(PartialEq, Debug)]
#[repr(C)]
struct OfC {
    len: usize,
    scalar: u32,
    kind: u8,
}

extern "C" {
    fn nody_utf8_first(bytes: *const u8, len: usize) -> OfC;
    fn nody_utf8_last(bytes: *const u8, len: usize) -> OfC;
    fn nody_utf8_valid_up_to(bytes: *const u8, len: usize) -> usize;
}

fn of_crate(piece: Option<Piece>) -> OfC {
    match piece.map(|piece| (piece.len, piece.result)) {
        None => OfC { len: 0, scalar: 0, kind: 11 },
        Some((len, Ok(c))) => OfC { len, scalar: u32::from(c), kind: 0 },
        Some((len, Err(fault))) => OfC { len, scalar: 0, kind: fault.kind() as u8 },
    }
}

fn is_equal(bytes: &[u8]) -> bool {
    let (at, len) = (bytes.as_ptr(), bytes.len());
    // SAFETY: the slice has that many bytes.
    let (first, last, valid) = unsafe { (nody_utf8_first(at, len), nody_utf8_last(at, len), nody_utf8_valid_up_to(at, len)) };
    let judged = str::from_utf8(bytes);
    let text = judged.unwrap_or_else(|error| str::from_utf8(&bytes[..error.valid_up_to()]).unwrap());
    let is_char = text.chars().next().map_or(first.kind != 0, |c| (first.scalar, first.len) == (u32::from(c), c.len_utf8()));
    is_char
        && of_crate(noddychest::first(bytes)) == first
        && of_crate(noddychest::last(bytes)) == last
        && noddychest::valid_up_to(bytes) == valid
        && valid == text.len()
}

/// How many of these numbers differ, as `len` bytes each.
fn differing(numbers: Range<u64>, len: usize) -> u64 {
    let is_other = |number: &u64| !is_equal(&number.to_le_bytes()[..len]);
    numbers.filter(is_other).inspect(|number| println!("every: {:02x?} differs", &number.to_le_bytes()[..len])).take(10).count() as u64
}

/// All numbers of `len` bytes, by `jobs` threads.
fn all(len: usize, jobs: usize) -> u64 {
    const BLOCK: u64 = 1 << 20;
    let (count, next) = (1_u64 << (8 * len), AtomicU64::new(0));
    let work = || {
        let mut differ = 0;
        loop {
            let start = next.fetch_add(BLOCK, Ordering::Relaxed);
            if count <= start {
                return differ;
            }
            differ += differing(start..count.min(start + BLOCK), len);
        }
    };
    thread::scope(|scope| {
        let threads: Vec<_> = (0..jobs).map(|_| scope.spawn(work)).collect();
        threads.into_iter().map(|it| it.join().unwrap()).sum()
    })
}

fn main() {
    let jobs = env::args().nth(1).map_or_else(|| thread::available_parallelism().map_or(1, usize::from), |it| it.parse().unwrap());
    let failed: u64 = (1..=4).map(|len| all(len, jobs)).sum();
    println!("{} passed, {failed} failed", (1..=4).map(|len| 1_u64 << (8 * len)).sum::<u64>() - failed);
    std::process::exit(i32::from(failed != 0));
}
