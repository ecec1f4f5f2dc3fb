//! How far bytes and units are well-formed: this project compared with std, `simdutf8` and `encoding_rs`.
//!
//! `valid times LEVEL SIZE ROUNDS`: a line for each form, input and side: the nanoseconds for each byte.
//! `valid one LEVEL FORM INPUT SIDE SIZE CALLS`: just these calls, for counting instructions.
//! `valid list`: a line for each form and each input, with the sides.
//!
//! LEVEL is that of x86-64 for which ours is compiled: v2, or v3 on a CPU that has it.
//! All inputs are texts, of which every side reads the whole.

use bench::inputs::Input;
use bench::library::{self, Level};
use bench::passages;
use bench::report::Best;
use encoding_rs::Encoding;
use simdutf8::basic::imp::x86::sse42::Utf8ValidatorImp as Lanes;
use simdutf8::basic::imp::Utf8Validator;
use std::hint::black_box;
use std::process::ExitCode;
use std::time::Instant;

const UTF8_SIDES: [&str; 5] = ["ours", "std", "simdutf8", "simdutf8_16", "encoding_rs"];
const UTF16_SIDES: [&str; 3] = ["ours", "std", "encoding_rs"];
const USAGE: &str = "valid times v2|v3 SIZE ROUNDS | one v2|v3 utf8|utf16 INPUT SIDE SIZE CALLS | list";

fn main() -> ExitCode {
    let args: Vec<String> = std::env::args().skip(1).collect();
    let words: Vec<&str> = args.iter().map(String::as_str).collect();
    done(&words).unwrap_or_else(|| {
        eprintln!("usage: {USAGE}");
        ExitCode::from(2)
    })
}

fn done(words: &[&str]) -> Option<ExitCode> {
    match words {
        ["times", level, size, rounds] => Some(times(Level::of_name(level)?, number(size)?, number(rounds)?)),
        ["one", level, form, name, side, size, calls] => one(Level::of_name(level)?, form, name, side, number(size)?, number(calls)?),
        ["list"] => Some(list()),
        _ => None,
    }
}

fn number(word: &str) -> Option<usize> {
    word.parse().ok().filter(|n| *n > 0)
}

// Each form and its sides.
fn forms() -> [(&'static str, &'static [&'static str]); 2] {
    [("utf8", &UTF8_SIDES), ("utf16", &UTF16_SIDES)]
}

fn texts(size: usize) -> impl Iterator<Item = (&'static str, Input)> {
    let made = passages::NAMES.into_iter().map(move |name| (name, passages::make(name, size).expect("the names are known")));
    made.filter(|(_, input)| input.is_text())
}

fn list() -> ExitCode {
    for (form, sides) in forms() {
        for (name, _) in texts(1) {
            println!("{form} {name} {}", sides.join(" "));
        }
    }
    ExitCode::SUCCESS
}

fn bytes_of(form: &str, input: &Input) -> usize {
    if form == "utf8" { input.bytes.len() } else { 2 * input.units.len() }
}

// A line for each form, text and side. The status is 1 if one does not read to the end.
fn times(level: Level, size: usize, rounds: usize) -> ExitCode {
    let mut agree = true;
    for (form, sides) in forms() {
        for (name, input) in texts(size) {
            agree &= time_row(level, form, sides, name, &input, rounds);
        }
    }
    if agree { ExitCode::SUCCESS } else { ExitCode::FAILURE }
}

// Rounds of all sides, in turn.
fn time_row(level: Level, form: &str, sides: &[&str], name: &str, input: &Input, rounds: usize) -> bool {
    let mut best: Vec<Best> = sides.iter().map(|_| Best::default()).collect();
    let mut ends = vec![0; sides.len()];
    for _ in 0..rounds {
        for (side, (best, end)) in sides.iter().zip(best.iter_mut().zip(&mut ends)) {
            let start = Instant::now();
            *end = black_box(valid_up_to(level, form, side, black_box(input)));
            best.add(start.elapsed());
        }
    }
    for (side, best) in sides.iter().zip(&best) {
        println!("{form} {name} {side} {:.5}", best.per(bytes_of(form, input)));
    }
    let agree = ends.iter().all(|end| *end == ends[0]);
    if !agree {
        eprintln!("DIFFERS {form} {name}: {ends:?}");
    }
    agree
}

// So many calls of one side, which may be none of them.
fn one(level: Level, form: &str, name: &str, side: &str, size: usize, calls: usize) -> Option<ExitCode> {
    let (form, _) = forms().into_iter().find(|(known, _)| *known == form)?;
    let input = passages::make(name, size)?;
    let mut end = 0;
    for _ in 0..calls {
        end = black_box(valid_up_to(level, form, side, black_box(&input)));
    }
    println!("{end} {}", bytes_of(form, &input));
    Some(ExitCode::SUCCESS)
}

fn valid_up_to(level: Level, form: &str, side: &str, input: &Input) -> usize {
    let (bytes, units) = (input.bytes.as_slice(), input.units.as_slice());
    match (form, side) {
        ("utf8", "ours") => library::valid_up_to(level, bytes),
        ("utf8", "std") => std::str::from_utf8(bytes).map_or_else(|error| error.valid_up_to(), str::len),
        ("utf8", "simdutf8") => simdutf8::basic::from_utf8(bytes).map_or(0, str::len),
        ("utf8", "simdutf8_16") => text_len_by_sixteen(bytes),
        ("utf8", "encoding_rs") => Encoding::utf8_valid_up_to(bytes),
        ("utf16", "ours") => library::units_valid_up_to(level, units),
        ("utf16", "std") => well_formed_units(units),
        ("utf16", "encoding_rs") => encoding_rs::mem::utf16_valid_up_to(units),
        _ => 0,
    }
}

// By `simdutf8` in the lanes of sixteen bytes that this program is built for.
fn text_len_by_sixteen(bytes: &[u8]) -> usize {
    let is_text = unsafe {
        let mut validator = Lanes::new();
        validator.update(bytes);
        validator.finalize().is_ok()
    };
    if is_text { bytes.len() } else { 0 }
}

// By std's decoder, since it has no such call of units.
fn well_formed_units(units: &[u16]) -> usize {
    let well_formed = char::decode_utf16(units.iter().copied()).map_while(Result::ok);
    well_formed.map(char::len_utf16).sum()
}
