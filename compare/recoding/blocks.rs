//! Blocks of text with one thing in them that is other, at every place: a fault, or a code of another length.
//!
//! Each is converted into each form: whole, cut in two at every place, byte by byte, and into rooms of one size each; and it
//! is asked how far it is well-formed. Some go into a first room of every size, and are asked where shards may end.

use crate::tally::Tally;
use crate::{judge, ours, peer};
use std::sync::atomic::{AtomicUsize, Ordering};
use std::sync::Mutex;
use std::thread;

/// The longest block that is asked of everything: three of 64 bytes, and some more.
const MOST: usize = 200;

/// How many bytes longer blocks have, of which some hundreds go one by one and the others together, and how far the things in
/// them are apart.
const LONG: [usize; 3] = [1031, 2075, 4139];
const APART: usize = 62;

/// The sizes of rooms for these.
const LONG_ROOMS: [usize; 4] = [100, 1000, 1985, 4096];

/// The sizes of rooms: less than a code, and about those in which runs write.
const ROOMS: [usize; 13] = [1, 3, 4, 5, 8, 15, 16, 17, 32, 33, 64, 65, 100];

/// One block in `ONE_OF` goes into a first buffer of each size and is asked for the ends of its shards, and one in `SAMPLE_OF` is
/// written out as a sample.
const ONE_OF: usize = 16;
const SAMPLE_OF: usize = 400;

/// What blocks are filled with: characters whose codes have one, two, three and four bytes, and all of these.
const FILLS: [&str; 5] = [
    "a\0Z\u{7f}",
    "\u{80}é\u{7ff}",
    "\u{800}€\u{d7ff}\u{e000}\u{ffff}",
    "\u{10000}🂠\u{10ffff}",
    "aé€🂠b\u{7ff}\u{ffff}\u{10ffff}cd€",
];

/// What may be other in a block of UTF-8. At the end of a block the fronts of codes have too few bytes, and before
/// it they are interrupted.
const BYTES: [&[u8]; 37] = [
    // no byte of UTF-8
    b"\xc0", b"\xc1", b"\xf5", b"\xff",
    // continuation bytes
    b"\x80", b"\xbf", b"\x80\xbf",
    // fronts of codes
    b"\xc2", b"\xdf", b"\xe0", b"\xe0\xa0", b"\xe2\x82", b"\xed\x9f", b"\xef\xbf", b"\xf0", b"\xf0\x90", b"\xf0\x9f\x82",
    b"\xf4\x8f", b"\xf4\x8f\xbf",
    // longer than they have to be
    b"\xe0\x80\x80", b"\xe0\x9f\xbf", b"\xf0\x80\x80\x80", b"\xf0\x8f\xbf\xbf",
    // surrogates
    b"\xed\xa0\x80", b"\xed\xbf\xbf",
    // too high
    b"\xf4\x90\x80\x80", b"\xf4\xbf\xbf\xbf",
    // codes
    b"a", b"\x7f", b"\xc2\x80", b"\xdf\xbf", b"\xe0\xa0\x80", b"\xed\x9f\xbf", b"\xee\x80\x80", b"\xef\xbf\xbd",
    b"\xf0\x90\x80\x80", b"\xf4\x8f\xbf\xbf",
];

/// What may differ in a block of UTF-16. Blocks of odd length have half a unit at their end.
const UNITS: [&[u16]; 16] = [
    // leading surrogates: at the end of a block they are incomplete
    &[0xd800], &[0xdbff], &[0xd83c, 0xd83c],
    // trailing ones
    &[0xdc00], &[0xdfff], &[0xdca0, 0xd83c],
    // codes
    &[0x41], &[0x7f], &[0x80], &[0x7ff], &[0x800], &[0xd7ff], &[0xe000], &[0xfffd], &[0xd800, 0xdc00], &[0xdbff, 0xdfff],
];

/// What is counted of blocks, and the lines of the sample.
#[derive(Default)]
struct Found {
    blocks: usize,
    cuts: Tally,
    rooms: Tally,
    places: Tally,
    peers: Tally,
    sample: String,
}

/// Holds all blocks against std, and against `encoding_rs` if it is installed, on all CPUs. Returns how much
/// differs, and lines `FROM TO|INPUT|OUTPUT` of some.
pub fn all() -> (usize, String) {
    let works: Vec<(usize, &str)> = (0..3).flat_map(|form| FILLS.map(|fill| (form, fill))).collect();
    let (next, found) = (AtomicUsize::new(0), Mutex::new(Found::default()));
    let work_on = || {
        while let Some((form, fill)) = works.get(next.fetch_add(1, Ordering::Relaxed)) {
            for more in [blocks_between(*form, fill), long_blocks_between(*form, fill)] {
                found.lock().expect("no thread panics").add(more);
            }
        }
    };
    thread::scope(|scope| {
        for _ in 0..thread::available_parallelism().map_or(1, usize::from) {
            scope.spawn(work_on);
        }
    });
    let found = found.into_inner().expect("no thread panics");
    (found.print(), found.sample)
}

impl Found {
    fn add(&mut self, more: Found) {
        self.blocks += more.blocks;
        self.cuts.add(&more.cuts);
        self.rooms.add(&more.rooms);
        self.places.add(&more.places);
        self.peers.add(&more.peers);
        self.sample.push_str(&more.sample);
    }

    // Prints the counts, and returns how much differs.
    fn print(&self) -> usize {
        println!("blocks: {} in {} cuts, {} differ", self.blocks, self.cuts.asked, self.cuts.differing);
        println!("rooms: {} sizes, {} differ", self.rooms.asked, self.rooms.differing);
        println!("places: {} asked, {} differ", self.places.asked, self.places.differing);
        if self.peers.asked > 0 {
            println!("encoding_rs: {} blocks, {} differ", self.peers.asked, self.peers.differing);
        }
        [&self.cuts, &self.rooms, &self.places, &self.peers].iter().map(|tally| tally.differing).sum()
    }
}

// All blocks of each length: each thing at each place, between text.
fn blocks_between(form: usize, fill: &str) -> Found {
    let mut found = Found::default();
    let unit = if form == 0 { 1 } else { 2 };
    for len in 1..=MOST {
        let odd = len % unit;
        for other in others(form) {
            let Some(room) = (len - odd).checked_sub(other.len()) else {
                continue;
            };
            for place in (0..=room).step_by(unit) {
                let after = text(form, fill, room - place, true);
                let block = [&text(form, fill, place, false)[..], &other, &after, &[0xd8][..odd]].concat();
                hold(form, &block, &mut found);
            }
        }
    }
    found
}

// The long blocks: each thing at places that are so far apart, the first one another for each.
fn long_blocks_between(form: usize, fill: &str) -> Found {
    let mut found = Found::default();
    let unit = if form == 0 { 1 } else { 2 };
    for len in LONG {
        let odd = len % unit;
        for (number, other) in others(form).iter().enumerate() {
            let room = len - odd - other.len();
            for place in (number * unit % APART..=room).step_by(APART) {
                let after = text(form, fill, room - place, true);
                let block = [&text(form, fill, place, false)[..], other, &after, &[0xd8][..odd]].concat();
                hold_long(form, &block, place, &mut found);
            }
        }
    }
    found
}

// One long block, into each form: whole, cut before what is other in it, and into rooms of each size.
fn hold_long(from: usize, block: &[u8], place: usize, found: &mut Found) {
    found.blocks += 1;
    let shown = judge::shown(from, block);
    for to in 0..3 {
        let expected = judge::written(to, &shown);
        for cut in [block.len(), place] {
            let answer = ours::recode(from, to, block, &[cut as u32]);
            found.cuts.count(answer.as_deref() == Some(&expected[..]), || format!("{}: cut at {cut}", told(from, to, block)));
        }
        for size in LONG_ROOMS {
            let calls = expected.len() / (size - 3) + 2;
            hold_calls(from, to, block, &expected, &vec![[block.len() as u32, size as u32]; calls], size, &mut found.rooms);
        }
    }
    hold_well_formed(from, block, &mut found.places);
}

fn others(form: usize) -> Vec<Vec<u8>> {
    let order = if form == 1 { u16::to_le_bytes } else { u16::to_be_bytes };
    match form {
        0 => BYTES.iter().map(|bytes| bytes.to_vec()).collect(),
        _ => UNITS.iter().map(|units| units.iter().copied().flat_map(order).collect()).collect(),
    }
}

// As many characters as fit into `len` bytes, and ASCII for the rest, after them or before.
fn text(form: usize, fill: &str, len: usize, is_ascii_last: bool) -> Vec<u8> {
    let mut codes = Vec::new();
    for c in fill.chars().cycle() {
        let code = judge::written(form, c.encode_utf8(&mut [0; 4]));
        if len < codes.len() + code.len() {
            break;
        }
        codes.extend(code);
    }
    let ascii = judge::written(form, &"x".repeat(len - codes.len()));
    let ascii = &ascii[..len - codes.len()];
    if is_ascii_last {
        [&codes, ascii].concat()
    } else {
        [ascii, &codes].concat()
    }
}

// One block, into each form.
fn hold(from: usize, block: &[u8], found: &mut Found) {
    found.blocks += 1;
    let shown = judge::shown(from, block);
    if let Some(other) = peer::shown(from, block) {
        found.peers.count(other == shown, || format!("{} {block:02x?}: encoding_rs {other:?}", ours::FORMS[from]));
    }
    for to in 0..3 {
        let expected = judge::written(to, &shown);
        hold_cuts(from, to, block, &expected, &mut found.cuts);
        hold_rooms(from, to, block, &expected, found);
        if (found.blocks + to) % SAMPLE_OF == 0 {
            found.sample.push_str(&format!("{}|{}\n", told(from, to, block), digits(&expected)));
        }
    }
    hold_well_formed(from, block, &mut found.places);
    if found.blocks % ONE_OF == 0 {
        hold_shards(from, block, &mut found.places);
    }
}

fn digits(bytes: &[u8]) -> String {
    bytes.iter().map(|byte| format!("{byte:02x}")).collect()
}

fn told(from: usize, to: usize, block: &[u8]) -> String {
    format!("{} {}|{}", ours::FORMS[from], ours::FORMS[to], digits(block))
}

// In two parts, cut at each place, which is the whole at the last one; and byte by byte.
fn hold_cuts(from: usize, to: usize, block: &[u8], expected: &[u8], tally: &mut Tally) {
    for place in 0..=block.len() as u32 {
        let answer = ours::recode(from, to, block, &[place]);
        tally.count(answer.as_deref() == Some(expected), || format!("{}: cut at {place}: {answer:02x?}", told(from, to, block)));
    }
    let answer = ours::recode(from, to, block, &vec![1; block.len()]);
    tally.count(answer.as_deref() == Some(expected), || format!("{}: byte by byte: {answer:02x?}", told(from, to, block)));
}

fn hold_rooms(from: usize, to: usize, block: &[u8], expected: &[u8], found: &mut Found) {
    for size in ROOMS {
        // If there is room for four bytes, a call leaves at most three of it, or has read the rest.
        let calls = expected.len() / size.saturating_sub(3).max(1) + 2;
        hold_calls(from, to, block, expected, &vec![[block.len() as u32, size as u32]; calls], size, &mut found.rooms);
    }
    if found.blocks % ONE_OF == 0 {
        for size in 0..=expected.len() {
            hold_calls(from, to, block, expected, &[[block.len() as u32, size as u32]], size % 10, &mut found.rooms);
        }
    }
}

fn hold_calls(from: usize, to: usize, block: &[u8], expected: &[u8], calls: &[[u32; 2]], last: usize, tally: &mut Tally) {
    let answer = ours::recode_into(from, to, block, calls, last);
    tally.count(answer.as_deref() == Some(expected), || {
        format!("{}: {} rooms of {}, then {last}: {answer:02x?}", told(from, to, block), calls.len(), calls[0][1])
    });
}

// How far the block is well-formed.
fn hold_well_formed(from: usize, block: &[u8], tally: &mut Tally) {
    let (answer, expected) = if from == 0 {
        (ours::valid_up_to(block), judge::valid_up_to(block))
    } else {
        let units = judge::units(from, block);
        (ours::units_valid_up_to(&units), judge::units_valid_up_to(&units))
    };
    tally.count(answer == Some(expected), || format!("{}: well-formed up to {answer:?}, not {expected}", told(from, from, block)));
}

// Where its shards may end.
fn hold_shards(from: usize, block: &[u8], tally: &mut Tally) {
    for at in 0..=block.len() + 1 {
        let (answer, expected) = (ours::shard_end(from, block, at), judge::shard_end(from, block, at));
        tally.count(answer == expected, || format!("{}: shard of {at} ends at {answer}, not {expected}", told(from, from, block)));
    }
}
