//! `replacements SIZE ROUNDS [INPUT]`: what a replacement of one byte by one costs in a table of pieces, compared with moving both
//! lists by `Vec::splice`, which is handed the new pieces, and with decoding all anew with the Rust crate.
//!
//! Each number is the best time of the rounds, in microseconds, for one of many replacements at random
//! places. What making the table takes is measured too, and taken off.

use bench::inputs;
use bench::rust::number_of;
use bench::sums::{word_of, Checksum, ERROR};
use encode_unicode::error::Utf8Error;
use encode_unicode::iterator::Utf8CharDecoder;
use encode_unicode::Utf8Char;
use noddychest::{FaultKind, PieceTable};
use std::hint::black_box;
use std::process::ExitCode;
use std::time::{Duration, Instant};

const SEED: u64 = 0x5eed;

type Item = (usize, Result<Utf8Char, Utf8Error>, usize);

/// A byte that replaces another, and what it makes of the pieces: the new ones, and which they replace.
struct Step {
    place: usize,
    byte: u8,
    keep: usize,
    resume: usize,
    fresh: Vec<Item>,
}

fn main() -> ExitCode {
    let args: Vec<String> = std::env::args().skip(1).collect();
    let numbers: Vec<usize> = args.iter().map_while(|word| word.parse().ok()).collect();
    let ([size, rounds], 2..=3) = (&numbers[..], args.len()) else {
        eprintln!("usage: replacements SIZE ROUNDS [INPUT]");
        return ExitCode::from(2);
    };
    let is_asked = |name: &str| args.get(2).is_none_or(|asked| asked == name);
    println!("{:<11} {:>12} {:>9} {:>11} {:>12} {:>9}", "input", "replacements", "table", "both lists", "table/lists", "all anew");
    let asked = inputs::NAMES.into_iter().filter(|name| is_asked(name));
    let agree: Vec<bool> = asked.map(|name| row(name, *size, *rounds)).collect();
    match agree.iter().all(|agrees| *agrees) {
        true => ExitCode::SUCCESS,
        false => ExitCode::FAILURE,
    }
}

// One row of the table. Whether both sides end with the same pieces.
fn row(name: &str, size: usize, rounds: usize) -> bool {
    let src = inputs::make(name, size).expect("the names are known").bytes;
    // If few pieces move, a replacement takes less than a microsecond.
    let count = if name == "ascii" { 400_000 } else { 1_000 };
    let steps = steps_of(&src, count);
    let made = best(rounds, || ours(&src, 0));
    let replaced = best(rounds, || ours(&src, count));
    let spliced = best_splice(rounds, &src, &steps);
    let anew = best(rounds, || black_box(Utf8CharDecoder::from(black_box(&src[..])).collect::<Vec<_>>()).len() as u64);
    let each = |time: Duration| time.as_secs_f64() * 1e6 / count as f64;
    let (table, lists) = (each(replaced.0.saturating_sub(made.0)), each(spliced.0));
    println!(
        "{name:<11} {count:>12} {table:>9.3} {lists:>11.3} {:>12.2} {:>9.0}",
        table / lists,
        anew.0.as_secs_f64() * 1e6
    );
    if replaced.1 != spliced.1 {
        eprintln!("DIFFERS {name}");
    }
    replaced.1 == spliced.1
}

// The checksum of the pieces of the table after `count` replacements.
fn ours(src: &[u8], count: u64) -> u64 {
    let (mut table, mut random) = (PieceTable::new(src), SEED);
    for _ in 0..count {
        let (place, byte) = replacement(&mut random, table.bytes().len());
        table.replace(place..place + 1, &[byte]);
    }
    let mut sum = Checksum::default();
    for piece in table.pieces() {
        let what = piece.result.map_or_else(|fault| ERROR | (fault.kind() as u32 - FaultKind::TooFewBytes as u32), |c| c as u32);
        sum.add(word_of(piece.offset, piece.len, what));
    }
    sum.value()
}

// The next offset, below the length, and the byte that is put there.
#[inline(always)]
fn replacement(random: &mut u64, len: usize) -> (usize, u8) {
    *random = random.wrapping_mul(0x5851_f42d_4c95_7f2d).wrapping_add(0x1405_7b7e_f767_814f);
    ((*random >> 24) as usize % len, (*random >> 56) as u8)
}

// The best time of the rounds, and the result.
fn best(rounds: usize, work: impl Fn() -> u64) -> (Duration, u64) {
    let timed = (0..rounds.max(1)).map(|_| {
        let start = Instant::now();
        let answer = black_box(work());
        (start.elapsed(), answer)
    });
    timed.min_by_key(|(time, _)| *time).expect("there is a round")
}

// The best time and the checksum of the pieces if only both lists are moved.
fn best_splice(rounds: usize, src: &[u8], steps: &[Step]) -> (Duration, u64) {
    let timed = (0..rounds.max(1)).map(|_| {
        let mut bytes = src.to_vec();
        let mut pieces: Vec<Item> = Utf8CharDecoder::from(src).collect();
        let start = Instant::now();
        for step in steps {
            splice(&mut bytes, &mut pieces, step);
        }
        let time = start.elapsed();
        black_box(&bytes);
        (time, checksum_of(&pieces))
    });
    timed.min_by_key(|(time, _)| *time).expect("there is a round")
}

#[inline(always)]
fn splice(bytes: &mut Vec<u8>, pieces: &mut Vec<Item>, step: &Step) {
    bytes.splice(step.place..step.place + 1, [step.byte]);
    pieces.splice(step.keep..step.resume, step.fresh.iter().copied());
}

fn checksum_of(pieces: &[Item]) -> u64 {
    let mut sum = Checksum::default();
    for (place, answer, len) in pieces {
        let what = match answer {
            Ok(c) => c.to_char() as u32,
            Err(error) => number_of(error.kind()),
        };
        sum.add(word_of(*place, *len, what));
    }
    sum.value()
}

// The replacements that `ours` makes, each with the pieces that it changes.
fn steps_of(src: &[u8], count: u64) -> Vec<Step> {
    let mut bytes = src.to_vec();
    let mut pieces: Vec<Item> = Utf8CharDecoder::from(src).collect();
    let mut random = SEED;
    let steps = (0..count).map(|_| {
        let (place, byte) = replacement(&mut random, bytes.len());
        let keep = pieces.partition_point(|item| item.0 < place.saturating_sub(3));
        let resume = pieces.partition_point(|item| item.0 < place + 4);
        let from = keep.checked_sub(1).map_or(0, |last| pieces[last].0 + pieces[last].2);
        bytes[place] = byte;
        let fresh = Utf8CharDecoder::from(&bytes[from..])
            .map(|(offset, answer, len)| (from + offset, answer, len))
            .take_while(|item| item.0 < place + 4)
            .collect();
        let step = Step { place, byte, keep, resume, fresh };
        splice(&mut bytes, &mut pieces, &step);
        step
    });
    steps.collect()
}
