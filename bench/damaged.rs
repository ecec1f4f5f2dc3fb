//! Times decoding of damaged UTF-8 and UTF-16: calls of the library for C, and of encoding_rs, std and iconv(3) for the same bytes. See bench/damaged.

use std::ffi::{c_char, c_int, c_void};
use std::hint::black_box;
use std::time::Instant;

#[repr(C)]
#[derive(Clone, Copy)]
struct Recoder {
    from: u8,
    to: u8,
    count: u8,
    held: [u8; 3],
    replaced: u64,
}

#[repr(C)]
struct Cursor {
    bytes: *const u8,
    len: usize,
}

#[repr(C)]
#[derive(Clone, Copy)]
struct Located {
    offset: u64,
    scalar: u32,
    len: u8,
    kind: u8,
}

extern "C" {
    fn nody_recoder(from: u8, to: u8) -> Recoder;
    fn nody_recoder_feed_lossy(it: *mut Recoder, bytes: *const u8, len: usize, out: *mut u8, room: usize, read: *mut usize, written: *mut usize) -> u8;
    fn nody_recoder_finish_lossy(it: *mut Recoder, out: *mut u8, room: usize, written: *mut usize) -> u8;
    fn nody_utf8_faults(left: *mut Cursor, offset: *mut u64, out: *mut Located, capacity: usize) -> usize;
    fn iconv_open(to: *const c_char, from: *const c_char) -> *mut c_void;
    fn iconv(handle: *mut c_void, src: *mut *const u8, left: *mut usize, out: *mut *mut u8, room: *mut usize) -> usize;
    fn iconv_close(handle: *mut c_void) -> c_int;
}

/// What is done with an input: its text with one U+FFFD for each maximal subpart, or the list of its errors. The last two take UTF-16LE.
#[derive(Clone, Copy, PartialEq)]
enum Work {
    ToUtf16,
    ToUtf8,
    Faults,
    FromUtf16,
    SwapUtf16,
}

const WORKS: [(&str, Work, &[&str]); 5] = [
    ("to-utf16", Work::ToUtf16, &["ours", "encoding_rs", "iconv"]),
    ("to-utf8", Work::ToUtf8, &["ours", "encoding_rs", "std"]),
    ("faults", Work::Faults, &["ours", "std"]),
    ("from-utf16", Work::FromUtf16, &["ours", "encoding_rs", "std"]),
    ("swap-utf16", Work::SwapUtf16, &["ours", "std"]),
];
/// The distance between damaged bytes; 0 if none is damaged.
const DENSITIES: [usize; 6] = [0, 100_000, 1000, 100, 30, 10];
/// The distance between lone surrogates, in units.
const UNIT_DENSITIES: [usize; 5] = [0, 1000, 100, 30, 10];
/// With fewer errors their time is lost in that of the text.
const FEWEST: usize = 100;
const NONE: Located = Located { offset: 0, scalar: 0, len: 0, kind: 0 };

fn texts() -> [(&'static str, &'static str); 4] {
    [
        ("ascii", "2026-11-29 08:15:01 INFO worker-7 handled request /api/v1/items?id=42 in 13ms status=200\n"),
        ("german", "Die Größe der Bäume hängt vom Wetter ab, und für Österreich gilt Ähnliches über viele Jahre.\n"),
        ("russian", "Быстрая коричневая лиса прыгает через ленивую собаку у реки.\n"),
        ("chinese", "敏捷的棕色狐狸跳过了懒狗，然后在河边休息了一会儿。\n"),
    ]
}

/// The texts that are also UTF-16.
fn unit_texts() -> [(&'static str, &'static str); 5] {
    let [ascii, german, russian, chinese] = texts();
    [ascii, german, russian, chinese, ("emoji", "😀👩🎉🌍🚀")]
}

struct Chance(u64);

impl Chance {
    fn next(&mut self) -> usize {
        self.0 ^= self.0 << 13;
        self.0 ^= self.0 >> 7;
        self.0 ^= self.0 << 17;
        (self.0.wrapping_mul(0x9E37_79B9_7F4A_7C15) >> 11) as usize
    }
}

fn repeated(text: &str, size: usize) -> Vec<u8> {
    text.repeat(size / text.len()).into_bytes()
}

fn damaged(text: &str, every: usize, size: usize) -> Vec<u8> {
    let (mut bytes, mut chance) = (repeated(text, size), Chance(88_172_645_463_325_252));
    for _ in 0..bytes.len().checked_div(every).unwrap_or(0) {
        let at = chance.next() % bytes.len();
        bytes[at] = [0xff, 0xe4, 0xa9][chance.next() % 3];
    }
    bytes
}

/// UTF-16LE in which a leading or a trailing surrogate replaces one unit in `every`.
fn damaged_units(text: &str, every: usize, size: usize) -> Vec<u8> {
    let mut units: Vec<u16> = text.encode_utf16().cycle().take(size / 2).collect();
    let mut chance = Chance(88_172_645_463_325_252);
    for _ in 0..units.len().checked_div(every).unwrap_or(0) {
        let at = chance.next() % units.len();
        units[at] = [0xd83d, 0xde00][chance.next() % 2];
    }
    units.into_iter().flat_map(u16::to_le_bytes).collect()
}

/// Each surrogate of a supplementary character in three bytes, as CESU-8 has it.
fn cesu8(text: &str) -> Vec<u8> {
    let units = text.encode_utf16();
    units.flat_map(|unit| [0xe0 | (unit >> 12) as u8, 0x80 | (unit >> 6 & 0x3f) as u8, 0x80 | (unit & 0x3f) as u8]).collect()
}

/// Characters whose last byte is missing.
fn cut(text: &str) -> Vec<u8> {
    text.chars().flat_map(|it| it.to_string().into_bytes()[..it.len_utf8().saturating_sub(1).max(1)].to_vec()).collect()
}

/// The damaged inputs that have no density: their name, the bytes, and the text without damage.
fn inputs_of_one_kind(size: usize) -> Vec<(&'static str, Vec<u8>)> {
    let (german, chinese) = (texts()[1].1, texts()[3].1);
    let mut chance = Chance(1);
    vec![
        ("latin-1", german.repeat(size / german.len()).chars().map(|it| it as u8).collect()),
        ("random", (0..size).map(|_| chance.next() as u8).collect()),
        ("cut", cut(&chinese.repeat(size / chinese.len()))),
        ("cesu-8", cesu8(&"😀👩🎉🌍".repeat(size / 24))),
    ]
}

/// All inputs of a work: name, density and bytes.
fn inputs(work: Work, size: usize) -> Vec<(&'static str, usize, Vec<u8>)> {
    if is_from_units(work) {
        return unit_texts().into_iter().flat_map(|(name, text)| UNIT_DENSITIES.map(|every| (name, every, damaged_units(text, every, size)))).collect();
    }
    let texts = texts().into_iter().flat_map(|(name, text)| DENSITIES.map(|every| (name, every, damaged(text, every, size))));
    texts.chain(inputs_of_one_kind(size).into_iter().map(|(name, bytes)| (name, 1, bytes))).collect()
}

fn is_from_units(work: Work) -> bool {
    matches!(work, Work::FromUtf16 | Work::SwapUtf16)
}

fn units_of(src: &[u8]) -> Vec<u16> {
    src.chunks_exact(2).map(|it| u16::from_le_bytes([it[0], it[1]])).collect()
}

struct Rooms {
    bytes: Vec<u8>,
    #[cfg_attr(not(with_peers), allow(dead_code))]
    units: Vec<u16>,
    /// The input as units.
    given: Vec<u16>,
    found: Vec<Located>,
}

impl Rooms {
    fn new(src: &[u8]) -> Rooms {
        Rooms { bytes: vec![0; 3 * src.len() + 64], units: vec![0; src.len() + 64], given: units_of(src), found: vec![NONE; 256] }
    }
}

fn ours_to(from: u8, to: u8, src: &[u8], out: &mut [u8]) -> usize {
    let (mut read, mut written, mut last) = (0, 0, 0);
    unsafe {
        let mut it = nody_recoder(from, to);
        assert_eq!(nody_recoder_feed_lossy(&mut it, src.as_ptr(), src.len(), out.as_mut_ptr(), out.len(), &mut read, &mut written), 0);
        assert_eq!(nody_recoder_finish_lossy(&mut it, out[written..].as_mut_ptr(), out.len() - written, &mut last), 0);
    }
    written + last
}

fn our_faults(src: &[u8], found: &mut [Located]) -> usize {
    let (mut left, mut offset, mut total) = (Cursor { bytes: src.as_ptr(), len: src.len() }, 0, 0);
    loop {
        let count = unsafe { nody_utf8_faults(&mut left, &mut offset, found.as_mut_ptr(), found.len()) };
        total += count;
        if count < found.len() {
            return total;
        }
    }
}

/// (where instructions are counted it is not there, and not asked)
#[cfg(not(with_peers))]
fn encoding_rs_to(_: Work, _: &[u8], _: &mut Rooms) -> usize {
    unreachable!("built without encoding_rs")
}

#[cfg(with_peers)]
fn encoding_rs_to(work: Work, src: &[u8], rooms: &mut Rooms) -> usize {
    let encoding = if work == Work::FromUtf16 { encoding_rs::UTF_16LE } else { encoding_rs::UTF_8 };
    let mut decoder = encoding.new_decoder_without_bom_handling();
    match work {
        Work::ToUtf16 => 2 * decoder.decode_to_utf16(src, &mut rooms.units, true).2,
        _ => decoder.decode_to_utf8(src, &mut rooms.bytes, true).2,
    }
}

/// By iconv(3), with U+FFFD for each byte that it rejects.
fn iconv_to_utf16(src: &[u8], out: &mut [u8]) -> usize {
    let (mut from, mut left, mut place, mut room) = (src.as_ptr(), src.len(), out.as_mut_ptr(), out.len());
    unsafe {
        let handle = iconv_open(c"UTF-16LE".as_ptr(), c"UTF-8".as_ptr());
        while left > 0 && iconv(handle, &mut from, &mut left, &mut place, &mut room) == usize::MAX {
            place.copy_from([0xfd, 0xff].as_ptr(), 2);
            (from, left, place, room) = (from.add(1), left - 1, place.add(2), room - 2);
        }
        iconv_close(handle);
    }
    out.len() - room
}

/// Writes the units in the other byte order, with U+FFFD for each lone surrogate, by std.
fn std_swapped(units: &[u16], out: &mut [u8]) -> usize {
    let mut len = 0;
    for it in char::decode_utf16(units.iter().copied()) {
        for unit in it.unwrap_or(char::REPLACEMENT_CHARACTER).encode_utf16(&mut [0; 2]) {
            out[len..len + 2].copy_from_slice(&unit.to_be_bytes());
            len += 2;
        }
    }
    len
}

/// The number of errors of an input.
fn errors_in(work: Work, src: &[u8]) -> usize {
    if is_from_units(work) {
        return char::decode_utf16(units_of(src)).filter(Result::is_err).count();
    }
    our_faults(src, &mut vec![NONE; 256])
}

/// The bytes of output, or the number of errors.
#[inline(never)]
fn done(work: Work, side: &str, src: &[u8], rooms: &mut Rooms) -> usize {
    match (work, side) {
        (Work::ToUtf16, "ours") => ours_to(0, 1, src, &mut rooms.bytes),
        (Work::ToUtf8, "ours") => ours_to(0, 0, src, &mut rooms.bytes),
        (Work::FromUtf16, "ours") => ours_to(1, 0, src, &mut rooms.bytes),
        (Work::SwapUtf16, "ours") => ours_to(1, 2, src, &mut rooms.bytes),
        (Work::Faults, "ours") => our_faults(src, &mut rooms.found),
        (_, "encoding_rs") => encoding_rs_to(work, src, rooms),
        (_, "iconv") => iconv_to_utf16(src, &mut rooms.bytes),
        (Work::ToUtf8, _) => String::from_utf8_lossy(src).len(),
        (Work::FromUtf16, _) => String::from_utf16_lossy(&rooms.given).len(),
        (Work::SwapUtf16, _) => std_swapped(&rooms.given, &mut rooms.bytes),
        _ => src.utf8_chunks().map(|it| it.invalid().len()).sum(),
    }
}

/// The least nanoseconds of each side, in turn.
fn least(work: Work, sides: &[&str], src: &[u8], rounds: usize) -> Vec<f64> {
    let (mut rooms, mut least) = (Rooms::new(src), vec![f64::MAX; sides.len()]);
    for _ in 0..rounds {
        for (side, least) in sides.iter().zip(&mut least) {
            let begun = Instant::now();
            black_box(done(work, side, src, &mut rooms));
            *least = least.min(begun.elapsed().as_nanos() as f64);
        }
    }
    least
}

fn agree(work: Work, sides: &[&str], src: &[u8]) {
    let mut rooms = Rooms::new(src);
    let of_side: Vec<usize> = sides.iter().filter(|it| **it != "iconv").map(|it| done(work, it, src, &mut rooms)).collect();
    assert!(of_side.iter().all(|it| *it == of_side[0]), "the results differ: {of_side:?}");
}

fn times(size: usize, rounds: usize) {
    println!("text 1_in errors call : side ns_a_byte ns_an_error ..");
    for (name, work, sides) in WORKS {
        let mut clean = Vec::new();
        for (text, every, src) in inputs(work, size) {
            let errors = errors_in(work, &src);
            agree(work, sides, &src);
            let found = least(work, sides, &src, rounds);
            if every == 0 {
                clean = found.clone();
            }
            let cells = found.iter().zip(&clean).zip(sides).map(|((ns, base), side)| {
                let each = if every > 1 && errors >= FEWEST { format!("{:.0}", (ns - base) / errors as f64) } else { "-".into() };
                format!("{side} {:.3} {each}", ns / src.len() as f64)
            });
            println!("{text} {every} {errors} {name} : {}", cells.collect::<Vec<_>>().join(" "));
        }
    }
}

/// One call of a side, or none, for counting of instructions. Prints how many errors there are.
fn one(text: &str, every: usize, name: &str, calls: usize, size: usize, side: &str) {
    let (_, work, _) = WORKS.into_iter().find(|it| it.0 == name).expect("a call");
    let (_, _, src) = inputs(work, size).into_iter().find(|it| it.0 == text && it.1 == every).expect("an input");
    let mut rooms = Rooms::new(&src);
    println!("{}", errors_in(work, &src));
    for _ in 0..calls {
        black_box(done(work, side, &src, &mut rooms));
    }
}

/// Writes the inputs for other languages.
fn dump(folder: &str, size: usize) {
    for (name, every, src) in inputs(Work::ToUtf8, size) {
        std::fs::write(format!("{folder}/{name}.{every}"), src).expect("the folder is there");
    }
}

fn main() {
    let words: Vec<String> = std::env::args().skip(1).collect();
    let number = |at: usize| words[at].parse().expect("a number");
    match words[0].as_str() {
        "times" => times(number(1), number(2)),
        "one" => one(&words[1], number(2), &words[3], number(4), number(5), &words[6]),
        _ => dump(&words[1], number(2)),
    }
}
