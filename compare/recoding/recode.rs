//! Compares the recoder with what is expected. `compare/recode` builds and runs it.
//!
//! `recode cases FILE`: each line of the file is `FROM TO|INPUT|OUTPUT`, both in hexadecimal digits. Each input is fed
//! whole, byte by byte, and in every way of cutting it into two parts.
//! `recode texts SEED BYTES`: random texts of that many bytes in all, fed in random parts, for all pairs of encodings,
//! compared with iconv(3), and each also damaged, compared with std.
//! `recode lossy SEED COUNT SAMPLE`: COUNT damaged inputs with one U+FFFD for each maximal subpart, compared with std; a line of
//! each goes into the file.
//! `recode blocks SAMPLE`: blocks with one thing in them that differs, compared with std; lines of some go into the file.
//!
//! If the script found `encoding_rs`, that is compared as well.
//!
//! Status 0: nothing differs. 1: something does.

mod blocks;
mod judge;
mod lossy;
mod ours;
mod peer;
mod tally;

use ours::{pairs, recode, FORMS};
use std::ffi::{c_char, c_int, c_void, CString};
use std::process::ExitCode;
use tally::Tally;

extern "C" {
    fn iconv_open(to: *const c_char, from: *const c_char) -> *mut c_void;
    fn iconv(handle: *mut c_void, src: *mut *const u8, left: *mut usize, out: *mut *mut u8, room: *mut usize) -> usize;
    fn iconv_close(handle: *mut c_void) -> c_int;
}

fn main() -> ExitCode {
    let args: Vec<String> = std::env::args().skip(1).collect();
    let words: Vec<&str> = args.iter().map(String::as_str).collect();
    let differing = match words.as_slice() {
        ["cases", file] => cases(file),
        ["blocks", sample] => blocks(sample),
        ["lossy", seed, count, sample] => seed.parse().ok().zip(count.parse().ok()).and_then(|(seed, count)| lossy(seed, count, sample)),
        ["texts", seed, bytes] => seed.parse().ok().zip(bytes.parse().ok()).map(|(seed, bytes)| texts(seed, bytes)),
        _ => None,
    };
    match differing {
        Some(0) => ExitCode::SUCCESS,
        Some(_) => ExitCode::FAILURE,
        None => {
            eprintln!("usage: recode cases FILE | texts SEED BYTES | lossy SEED COUNT SAMPLE | blocks SAMPLE");
            ExitCode::from(2)
        }
    }
}

fn blocks(sample: &str) -> Option<usize> {
    let (differing, lines) = blocks::all();
    std::fs::write(sample, lines).ok()?;
    Some(differing)
}

fn lossy(seed: u64, count: usize, sample: &str) -> Option<usize> {
    let (differing, lines) = lossy::all(seed, count);
    std::fs::write(sample, lines).ok()?;
    Some(differing)
}

fn cases(file: &str) -> Option<usize> {
    let text = std::fs::read_to_string(file).ok()?;
    let mut tally = Tally::default();
    let mut peers = Tally::default();
    let mut inputs = 0;
    for line in text.lines().filter(|line| !line.starts_with('#')) {
        let (from, to, src, expected) = case(line)?;
        inputs += 1;
        hold_peer(&mut peers, from, to, &src, &expected);
        let whole = [vec![], vec![1; src.len()]];
        let in_two = (0..=src.len() as u32).map(|len| vec![len]);
        for lengths in whole.into_iter().chain(in_two) {
            let answer = recode(from, to, &src, &lengths);
            tally.count(answer.as_deref() == Some(&expected), || format!("{line}: in parts of {lengths:?}: {answer:x?}"));
        }
    }
    println!("cases: {inputs} inputs in {} cuts, {} differ", tally.asked, tally.differing);
    print_peers("cases", &peers);
    Some(tally.differing + peers.differing)
}

// Whether `encoding_rs` says of the input what is expected.
fn hold_peer(tally: &mut Tally, from: usize, to: usize, src: &[u8], expected: &[u8]) {
    if let Some(text) = peer::shown(from, src) {
        let agrees = judge::written(to, &text) == expected;
        tally.count(agrees, || format!("{} to {}: {src:02x?}: encoding_rs: {text:?}", FORMS[from], FORMS[to]));
    }
}

fn print_peers(what: &str, tally: &Tally) {
    if tally.asked > 0 {
        println!("encoding_rs: {} {what}, {} differ", tally.asked, tally.differing);
    }
}

// The forms, the input and the output of a line.
fn case(line: &str) -> Option<(usize, usize, Vec<u8>, Vec<u8>)> {
    let [forms, src, out] = line.split('|').collect::<Vec<_>>()[..] else {
        return None;
    };
    let (from, to) = forms.split_once(' ')?;
    let place = |form: &str| FORMS.iter().position(|name| *name == form);
    Some((place(from)?, place(to)?, bytes_of(src)?, bytes_of(out)?))
}

fn bytes_of(digits: &str) -> Option<Vec<u8>> {
    let pairs = digits.as_bytes().chunks(2);
    pairs.map(|pair| u8::from_str_radix(std::str::from_utf8(pair).ok()?, 16).ok()).collect()
}

// Texts of some size each, until they have `bytes` bytes, for the pairs of encodings in turn, and then the same damaged.
fn texts(seed: u64, bytes: usize) -> usize {
    let mut random = Random(seed);
    let mut tally = Tally::default();
    let mut damaged = Tally::default();
    let mut peers = Tally::default();
    let mut done = 0;
    while done < bytes {
        let size = 1 << (4 + random.below(17));
        let text = text(&mut random, size as usize);
        for (from, to) in pairs() {
            let mut src = by_iconv(0, from, text.as_bytes());
            let agrees = recode(from, to, &src, &parts(&mut random, src.len())) == Some(by_iconv(from, to, &src));
            tally.count(agrees, || format!("{} to {}: a text of {} bytes", FORMS[from], FORMS[to], src.len()));
            damage(&mut random, &mut src);
            let expected = judge::recode(from, to, &src);
            let agrees = recode(from, to, &src, &parts(&mut random, src.len())).as_ref() == Some(&expected);
            damaged.count(agrees, || format!("{} to {}: a damaged text of {} bytes", FORMS[from], FORMS[to], src.len()));
            hold_peer(&mut peers, from, to, &src, &expected);
            done += src.len();
        }
    }
    println!("texts: {done} bytes in {} texts, {} differ", tally.asked, tally.differing);
    println!("texts, damaged: {}, {} differ", damaged.asked, damaged.differing);
    print_peers("damaged texts", &peers);
    tally.differing + damaged.differing + peers.differing
}

// Other bytes in some places: in one of eight, or hardly any.
fn damage(random: &mut Random, src: &mut [u8]) {
    let rare = 1 << (3 + random.below(12));
    for _ in 0..1 + src.len() as u64 / rare {
        let place = random.below(src.len() as u64) as usize;
        src[place] = random.next() as u8;
    }
}

// Lengths of parts, about `len` bytes in all.
fn parts(random: &mut Random, len: usize) -> Vec<u32> {
    let most = 1 << random.below(18);
    let mut lengths = Vec::new();
    let mut sum = 0;
    while sum < len && lengths.len() < 10_000 {
        let part = random.below(most + 1);
        lengths.push(part as u32);
        sum += part as usize;
    }
    lengths
}

// Runs of characters whose codes have one length.
fn text(random: &mut Random, size: usize) -> String {
    let mut text = String::with_capacity(size + 64);
    while text.len() < size {
        let (low, high) = [(0, 0x80), (0x80, 0x800), (0x800, 0x1_0000), (0x1_0000, 0x11_0000)][random.below(4) as usize];
        for _ in 0..1 + random.below(40) {
            text.extend(char::from_u32((low + random.below(high - low)) as u32));
        }
    }
    text
}

fn by_iconv(from: usize, to: usize, src: &[u8]) -> Vec<u8> {
    let name = |form: usize| CString::new(["UTF-8", "UTF-16LE", "UTF-16BE"][form]).expect("no zero");
    let handle = unsafe { iconv_open(name(to).as_ptr(), name(from).as_ptr()) };
    assert!(handle as isize != -1, "iconv knows the forms");
    let mut out = vec![0; 3 * src.len()];
    let (mut place, mut left) = (src.as_ptr(), src.len());
    let (mut free, mut room) = (out.as_mut_ptr(), out.len());
    let answer = unsafe { iconv(handle, &mut place, &mut left, &mut free, &mut room) };
    assert!(answer != usize::MAX && left == 0, "the text is faultless");
    unsafe { iconv_close(handle) };
    out.truncate(out.len() - room);
    out
}

// SplitMix64.
struct Random(u64);

impl Random {
    fn next(&mut self) -> u64 {
        self.0 = self.0.wrapping_add(0x9e37_79b9_7f4a_7c15);
        let mut z = self.0;
        z = (z ^ (z >> 30)).wrapping_mul(0xbf58_476d_1ce4_e5b9);
        z = (z ^ (z >> 27)).wrapping_mul(0x94d0_49bb_1331_11eb);
        z ^ (z >> 31)
    }

    // A number below `bound`.
    fn below(&mut self, bound: u64) -> u64 {
        ((self.next() >> 32) * bound) >> 32
    }
}
