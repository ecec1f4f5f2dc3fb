//! This project compared with `encoding_rs`, iconv(3) and std, for each pair of forms and input.
//!
//! `recode times SIZE ROUNDS`: a line for each pair, input and side: the nanoseconds for each byte.
//! `recode one FROM TO INPUT SIDE SIZE CALLS`: just these calls, for counting instructions.
//! `recode list`: a line for each pair of forms and each input, with the sides.
//! `recode short ROUNDS CALLS`, `recode short-one FROM TO INPUT BYTES SIDE CALLS`, `recode short-list`: these for short
//! texts, and per call.
//! `recode input FORM INPUT SIZE`: the bytes of an input in that form.
//!
//! The input is passed in parts of 64 KiB, and to std, which has no call for parts, whole. Each call returns the length of its
//! output. Ours is the library for C, for x86-64-v2, which writes into a buffer; `feed`, into a list, is the crate for Cargo's.

use bench::forms::{self, bytes_in, bytes_of_units};
use bench::inputs::Input;
use bench::passages::{self, SHORT_LENGTHS, SHORT_NAMES};
use bench::report::Best;
use bench::{by_encoding_rs, by_iconv, by_std, library};
use noddychest::{Encoding, Recoder};
use std::hint::black_box;
use std::io::Write;
use std::process::ExitCode;
use std::time::Instant;

const PART: usize = 0x1_0000;
const SIDES: [&str; 4] = ["ours", "encoding_rs", "iconv", "std"];
const SHORT_SIDES: [&str; 3] = ["feed", "feed_into", "encoding_rs"];
const SHORT_COUNT: usize = 1000;
const USAGE: &str = "recode times SIZE ROUNDS | one FROM TO INPUT SIDE SIZE CALLS | list | short ROUNDS CALLS | short-one FROM TO INPUT BYTES SIDE CALLS | short-list | input FORM INPUT SIZE";

fn main() -> ExitCode {
    let args: Vec<String> = std::env::args().skip(1).collect();
    let words: Vec<&str> = args.iter().map(String::as_str).collect();
    forms::keep_memory();
    done(&words).unwrap_or_else(|| {
        eprintln!("usage: {USAGE}");
        ExitCode::from(2)
    })
}

fn done(words: &[&str]) -> Option<ExitCode> {
    match words {
        ["times", size, rounds] => Some(times(number(size)?, number(rounds)?)),
        ["one", from, to, name, side, size, calls] => {
            Pair::of_names(from, to)?.one(name, side, number(size)?, number(calls)?)
        }
        ["list"] => Some(list()),
        ["short", rounds, calls] => Some(short_times(number(rounds)?, number(calls)?)),
        ["short-one", from, to, name, len, side, calls] => {
            Pair::of_names(from, to)?.short_one(name, number(len)?, side, number(calls)?)
        }
        ["short-list"] => Some(short_list()),
        ["input", form, name, size] => write_input(forms::of_name(form)?, name, number(size)?),
        _ => None,
    }
}

fn number(word: &str) -> Option<usize> {
    word.parse().ok().filter(|n| *n > 0)
}

fn status(agree: bool) -> ExitCode {
    if agree { ExitCode::SUCCESS } else { ExitCode::FAILURE }
}

/// What is converted into what.
#[derive(Clone, Copy)]
struct Pair {
    from: usize,
    to: usize,
}

/// The buffers of the peers, made once and used again.
struct Rooms {
    bytes: Vec<u8>,
    of_encoding_rs: by_encoding_rs::Rooms,
}

impl Rooms {
    fn new(part: usize) -> Rooms {
        Rooms { bytes: vec![0; 3 * part + 16], of_encoding_rs: by_encoding_rs::Rooms::new(part) }
    }
}

fn pairs() -> impl Iterator<Item = Pair> {
    let all = 0..forms::NAMES.len();
    all.clone().flat_map(move |from| all.clone().map(move |to| Pair { from, to }))
}

// A line for each pair and input. The status is 1 if two sides give different numbers of bytes for a text.
fn times(size: usize, rounds: usize) -> ExitCode {
    let (mut agree, mut rooms) = (true, Rooms::new(PART));
    for pair in pairs() {
        for name in passages::NAMES {
            let input = passages::make(name, size).expect("the names are known");
            agree &= pair.time(name, &input, rounds, &mut rooms);
        }
    }
    status(agree)
}

fn list() -> ExitCode {
    for pair in pairs() {
        for name in passages::NAMES {
            println!("{pair} {name} {}", pair.sides(&SIDES).join(" "));
        }
    }
    ExitCode::SUCCESS
}

fn short_times(rounds: usize, calls: usize) -> ExitCode {
    let mut rooms = Rooms::new(PART);
    let mut agree = true;
    for pair in pairs() {
        for name in SHORT_NAMES {
            for len in SHORT_LENGTHS {
                agree &= pair.time_short(name, len, rounds, calls, &mut rooms);
            }
        }
    }
    status(agree)
}

fn short_list() -> ExitCode {
    for pair in pairs() {
        for name in SHORT_NAMES {
            for len in SHORT_LENGTHS {
                println!("{pair} {name} {len} {}", pair.sides(&SHORT_SIDES).join(" "));
            }
        }
    }
    ExitCode::SUCCESS
}

impl std::fmt::Display for Pair {
    fn fmt(&self, f: &mut std::fmt::Formatter<'_>) -> std::fmt::Result {
        write!(f, "{} {}", forms::NAMES[self.from], forms::NAMES[self.to])
    }
}

impl Pair {
    fn of_names(from: &str, to: &str) -> Option<Pair> {
        Some(Pair { from: forms::of_name(from)?, to: forms::of_name(to)? })
    }

    // Those of the sides that recode so.
    fn sides(self, sides: &[&'static str]) -> Vec<&'static str> {
        sides.iter().copied().filter(|side| *side != "encoding_rs" || by_encoding_rs::does(self.to)).collect()
    }

    // Rounds of all sides, in turn.
    fn time(self, name: &str, input: &Input, rounds: usize, rooms: &mut Rooms) -> bool {
        let src = bytes_in(self.from, input);
        let sides = self.sides(&SIDES);
        let mut best: Vec<Best> = sides.iter().map(|_| Best::default()).collect();
        let mut lengths = vec![0; sides.len()];
        for _ in 0..rounds {
            for (side, (best, length)) in sides.iter().zip(best.iter_mut().zip(&mut lengths)) {
                let start = Instant::now();
                *length = black_box(self.recode(side, black_box(&src), rooms));
                best.add(start.elapsed());
            }
        }
        for (side, best) in sides.iter().zip(&best) {
            println!("{self} {name} {side} {:.5}", best.per(src.len()));
        }
        self.agree(name, &lengths, input.is_text())
    }

    fn agree(self, name: &str, lengths: &[u64], is_text: bool) -> bool {
        let agree = !is_text || lengths.iter().all(|length| *length == lengths[0]);
        if !agree {
            eprintln!("DIFFERS {self} {name}: {lengths:?}");
        }
        agree
    }

    // So many calls of one side, which may be none of them.
    fn one(self, name: &str, side: &str, size: usize, calls: usize) -> Option<ExitCode> {
        let src = bytes_in(self.from, &passages::make(name, size)?);
        let mut rooms = Rooms::new(PART);
        let mut length = 0;
        for _ in 0..calls {
            length = black_box(self.recode(side, black_box(&src), &mut rooms));
        }
        println!("{length} {}", src.len());
        Some(ExitCode::SUCCESS)
    }

    fn recode(self, side: &str, src: &[u8], rooms: &mut Rooms) -> u64 {
        let Pair { from, to } = self;
        match side {
            "ours" => library::in_parts(from, to, src, PART, &mut rooms.bytes),
            "encoding_rs" => by_encoding_rs::in_parts(from, to, src, PART, &mut rooms.of_encoding_rs),
            "iconv" => by_iconv::in_parts(from, to, src, PART, &mut rooms.bytes),
            "std" => by_std::at_once(from, to, src),
            _ => 0,
        }
    }

    // The nanoseconds of one call: the best round, each of which makes `calls` calls.
    fn time_short(self, name: &str, len: usize, rounds: usize, calls: usize, rooms: &mut Rooms) -> bool {
        let (src, each) = self.short_texts(name, len).expect("the names are known");
        let sides = self.sides(&SHORT_SIDES);
        let mut best: Vec<Best> = sides.iter().map(|_| Best::default()).collect();
        let mut lengths = vec![0; sides.len()];
        let passes = calls.div_ceil(rounds * SHORT_COUNT);
        for _ in 0..rounds {
            for (side, (best, length)) in sides.iter().zip(best.iter_mut().zip(&mut lengths)) {
                let start = Instant::now();
                for _ in 0..passes {
                    *length = black_box(self.recode_short(side, black_box(&src), each, rooms));
                }
                best.add(start.elapsed());
            }
        }
        for (side, best) in sides.iter().zip(&best) {
            println!("{self} {name} {len} {side} {:.3}", best.per(passes * SHORT_COUNT));
        }
        self.agree(&format!("{name} {len}"), &lengths, true)
    }

    // The short texts, joined, and how many bytes each has.
    fn short_texts(self, name: &str, len: usize) -> Option<(Vec<u8>, usize)> {
        let short = passages::short(name, len, SHORT_COUNT)?;
        match self.from {
            0 => Some((short.bytes, len)),
            form => Some((bytes_of_units(form, &short.units), 2 * short.units_each)),
        }
    }

    fn short_one(self, name: &str, len: usize, side: &str, calls: usize) -> Option<ExitCode> {
        let (src, each) = self.short_texts(name, len)?;
        let mut rooms = Rooms::new(PART);
        let passes = calls.div_ceil(SHORT_COUNT);
        let mut length = 0;
        for _ in 0..passes {
            length = black_box(self.recode_short(side, black_box(&src), each, &mut rooms));
        }
        println!("{length} {}", passes * SHORT_COUNT);
        Some(ExitCode::SUCCESS)
    }

    fn recode_short(self, side: &str, src: &[u8], each: usize, rooms: &mut Rooms) -> u64 {
        match side {
            "feed" => self.short_to_vec(src, each),
            "feed_into" => library::short(self.from, self.to, src, each, &mut rooms.bytes),
            "encoding_rs" => by_encoding_rs::short(self.from, self.to, src, each, &mut rooms.of_encoding_rs),
            _ => 0,
        }
    }

    // By the crate for Cargo, into one list that is emptied before each text.
    fn short_to_vec(self, src: &[u8], each: usize) -> u64 {
        let (from, to, mut out) = (Encoding::ALL[self.from], Encoding::ALL[self.to], Vec::new());
        let one = |text: &[u8]| {
            out.clear();
            let mut recoder = Recoder::new(from, to);
            let _ = recoder.feed_to_vec(text, &mut out);
            let _ = recoder.finish_to_vec(&mut out);
            out.len() as u64
        };
        src.chunks(each).map(one).sum()
    }
}

fn write_input(form: usize, name: &str, size: usize) -> Option<ExitCode> {
    let bytes = bytes_in(form, &passages::make(name, size)?);
    std::io::stdout().lock().write_all(&bytes).ok()?;
    Some(ExitCode::SUCCESS)
}
