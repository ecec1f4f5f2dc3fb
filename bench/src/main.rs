//! `bench times SIZE ROUNDS WORK..`: a line for each kind of work, input and side: the best time of the rounds. Without
//! a name it times all kinds of work.
//! `bench lengths WORK INPUT ROUNDS`: the best times of both sides on inputs of 16 bytes to 64 MiB.
//! `bench one WORK INPUT SIDE SIZE CALLS`: just these calls, for counting instructions.
//! `bench input INPUT SIZE`: the bytes of an input.

use bench::inputs::{self, Input};
use bench::report::Best;
use bench::work::{self, Work, Worker};
use std::hint::black_box;
use std::io::Write;
use std::process::ExitCode;
use std::time::Instant;

const USAGE: &str = "bench times SIZE ROUNDS WORK.. | lengths WORK INPUT ROUNDS | one WORK INPUT ours|rust|std|none SIZE CALLS | input INPUT SIZE | list";

fn main() -> ExitCode {
    let args: Vec<String> = std::env::args().skip(1).collect();
    let words: Vec<&str> = args.iter().map(String::as_str).collect();
    let done = match words.as_slice() {
        ["times", size, rounds, names @ ..] => number(size)
            .zip(number(rounds))
            .map(|(size, rounds)| times(names, size, rounds)),
        ["lengths", work, input, rounds] => number(rounds).and_then(|rounds| lengths(work, input, rounds)),
        ["one", work, input, side, size, calls] => number(size)
            .zip(number(calls))
            .and_then(|(size, calls)| one(work, input, side, size, calls)),
        ["input", name, size] => number(size).and_then(|size| write_input(name, size)),
        ["list"] => Some(list()),
        _ => None,
    };
    done.unwrap_or_else(|| {
        eprintln!("usage: {USAGE}");
        ExitCode::from(2)
    })
}

fn number(word: &str) -> Option<usize> {
    word.parse().ok().filter(|n| *n > 0)
}

// A line for each work, input and side. The status is 1 if two that should agree do not.
fn times(names: &[&str], size: usize, rounds: usize) -> ExitCode {
    let mut agree = true;
    for work in work::all().filter(|work| names.is_empty() || names.contains(&work.name)) {
        for name in inputs::NAMES {
            let input = inputs::make(name, size).expect("the names are known");
            if work.takes(&input) {
                agree &= time_row(work, name, &input, rounds);
            }
        }
    }
    if agree { ExitCode::SUCCESS } else { ExitCode::FAILURE }
}

// Rounds of all who do the work, in turn.
fn time_row(work: &Work, name: &str, input: &Input, rounds: usize) -> bool {
    let sides: Vec<(&str, Worker)> = work.sides().collect();
    let mut times: Vec<Best> = sides.iter().map(|_| Best::default()).collect();
    let mut sums = vec![0; sides.len()];
    for _ in 0..rounds {
        for (((_, side), times), sum) in sides.iter().zip(&mut times).zip(&mut sums) {
            let start = Instant::now();
            *sum = black_box(side(black_box(input)));
            times.add(start.elapsed());
        }
    }
    for ((side, _), times) in sides.iter().zip(&times) {
        println!("{} {name} {side} {:.4}", work.name, times.per((work.bytes)(input)));
    }
    agree(work, name, input, &sums)
}

// A line for each length of the input. A short one is worked over many times in a round, so that the clock can tell.
fn lengths(work: &str, name: &str, rounds: usize) -> Option<ExitCode> {
    let work = work::all().find(|known| known.name == work)?;
    println!("{:<9} {:>9} {:>9}  {} {name}", "bytes", "ours", "rust", work.name);
    for size in (4..=26).step_by(2).map(|power| 1 << power) {
        let input = inputs::make(name, size)?;
        let bytes = (work.bytes)(&input);
        let calls = (0x10_0000 / bytes).max(1);
        let [ours, rust] = [work.ours, work.rust].map(|side| best_of_calls(side, &input, calls, rounds));
        println!("{bytes:<9} {:>9.3} {:>9.3}", ours.per(calls * bytes), rust.per(calls * bytes));
    }
    println!("ns per byte, the best of {rounds} rounds");
    Some(ExitCode::SUCCESS)
}

fn best_of_calls(side: Worker, input: &Input, calls: usize, rounds: usize) -> Best {
    let mut best = Best::default();
    for _ in 0..rounds {
        let start = Instant::now();
        for _ in 0..calls {
            black_box(side(black_box(input)));
        }
        best.add(start.elapsed());
    }
    best
}

// Whether the checksums agree that have to: ours and the Rust crate's always, all on text.
fn agree(work: &Work, name: &str, input: &Input, sums: &[u64]) -> bool {
    let compared = if input.is_text() { sums } else { &sums[..2] };
    let agree = compared.iter().all(|sum| *sum == sums[0]);
    if !agree {
        eprintln!("DIFFERS {} {}: {:x?}", work.name, name, compared);
    }
    agree
}

// Calls one worker on one input and nothing else. The side `none` calls none.
fn one(work: &str, name: &str, side: &str, size: usize, calls: usize) -> Option<ExitCode> {
    let work = work::all().find(|known| known.name == work)?;
    let input = inputs::make(name, size)?;
    let none: Worker = |_| 0;
    let (_, worker) = work.sides().chain([("none", none)]).find(|(known, _)| *known == side)?;
    let worker = black_box(worker);
    let mut sum = 0u64;
    for _ in 0..calls {
        sum = sum.wrapping_add(worker(black_box(&input)));
    }
    println!("{sum:016x} {}", (work.bytes)(&input));
    Some(ExitCode::SUCCESS)
}

fn write_input(name: &str, size: usize) -> Option<ExitCode> {
    let input = inputs::make(name, size)?;
    let written = std::io::stdout().write_all(&input.bytes);
    Some(if written.is_ok() { ExitCode::SUCCESS } else { ExitCode::from(3) })
}

// A line for each work and each input that it takes: their names, whether the input is faultless, and the sides.
fn list() -> ExitCode {
    for work in work::all() {
        for name in inputs::NAMES {
            let input = inputs::make(name, 1).expect("the names are known");
            if work.takes(&input) {
                let kind = if input.is_text() { "text" } else { "faulty" };
                let sides: Vec<&str> = work.sides().map(|(side, _)| side).collect();
                println!("{} {name} {kind} {}", work.name, sides.join(" "));
            }
        }
    }
    ExitCode::SUCCESS
}
