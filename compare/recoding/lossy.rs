//! Transcoding with one U+FFFD for each maximal subpart, compared with std's `from_utf8_lossy` and, if the script found it, the
//! decoder of `encoding_rs`.

use crate::ours::recode_lossy;
use crate::tally::Tally;
use crate::{peer, Random};
use std::fmt::Write;

/// Damaged UTF-8 of `count` kinds in turn, each converted whole and by calls with random parts and capacities. The result has a line
/// `INPUT|OUTPUT` in hexadecimal for each, by std.
pub fn all(seed: u64, count: usize) -> (usize, String) {
    let mut random = Random(seed);
    let (mut beside_std, mut beside_peer, mut as_units) = (Tally::default(), Tally::default(), Tally::default());
    let mut lines = String::new();
    for kind in 0..count {
        let src = damaged(&mut random, kind);
        let expected = String::from_utf8_lossy(&src).into_owned();
        let said = |what: &str| format!("{src:02x?}: {what}, where std has {expected:?}");
        for calls in [vec![], vec![[1, 4]; src.len()], calls(&mut random, src.len())] {
            let answer = recode_lossy(0, 0, &src, &calls);
            beside_std.count(answer.as_deref() == Some(expected.as_bytes()), || said(&format!("{answer:02x?} by {calls:?}")));
        }
        let units: Vec<u8> = expected.encode_utf16().flat_map(u16::to_le_bytes).collect();
        let answer = recode_lossy(0, 1, &src, &calls(&mut random, src.len()));
        as_units.count(answer.as_ref() == Some(&units), || said(&format!("{answer:02x?} as units")));
        if let Some(text) = peer::lossy(&src) {
            beside_peer.count(text == expected, || said(&format!("encoding_rs has {text:?}")));
        }
        line(&mut lines, &src, expected.as_bytes());
    }
    println!("lossy: {count} inputs in {} cuts beside std, {} differ", beside_std.asked, beside_std.differing);
    println!("lossy, as UTF-16LE: {} inputs beside std, {} differ", as_units.asked, as_units.differing);
    if beside_peer.asked > 0 {
        println!("lossy: {} inputs, std beside encoding_rs, {} differ", beside_peer.asked, beside_peer.differing);
    }
    (beside_std.differing + as_units.differing + beside_peer.differing, lines)
}

fn line(lines: &mut String, src: &[u8], out: &[u8]) {
    let digits = |bytes: &[u8]| bytes.iter().fold(String::new(), |mut digits, byte| {
        let _ = write!(digits, "{byte:02x}");
        digits
    });
    let _ = writeln!(lines, "{}|{}", digits(src), digits(out));
}

// Bytes of any kind, of the edges of table 3-7, characters that are cut short, and text with some bytes replaced; some are
// longer than a block.
fn damaged(random: &mut Random, kind: usize) -> Vec<u8> {
    let len = if kind % 64 == 63 { 200 } else { 16 };
    let len = 1 + random.below(len) as usize;
    match kind % 4 {
        0 => (0..len).map(|_| random.next() as u8).collect(),
        1 => (0..len).map(|_| EDGES[random.below(EDGES.len() as u64) as usize]).collect(),
        2 => (0..len).flat_map(|_| cut_short(random)).collect(),
        _ => {
            let mut text: Vec<u8> = (0..len).flat_map(|_| code(random)).collect();
            for _ in 0..1 + text.len() / 8 {
                let place = random.below(text.len() as u64) as usize;
                text[place] = EDGES[random.below(EDGES.len() as u64) as usize];
            }
            text
        }
    }
}

// What begins, ends or breaks a code.
const EDGES: [u8; 24] = [
    0x00, 0x41, 0x7f, 0x80, 0x8f, 0x90, 0x9f, 0xa0, 0xbf, 0xc0, 0xc1, 0xc2, 0xdf, 0xe0, 0xe1, 0xec, 0xed, 0xef, 0xf0, 0xf1, 0xf3, 0xf4,
    0xf5, 0xff,
];

fn code(random: &mut Random) -> Vec<u8> {
    let most = [0x80, 0x800, 0x1_0000, 0x11_0000][random.below(4) as usize];
    let c = char::from_u32(random.below(most) as u32).unwrap_or('\u{fffd}');
    c.to_string().into_bytes()
}

fn cut_short(random: &mut Random) -> Vec<u8> {
    let mut bytes = code(random);
    bytes.truncate(1 + random.below(bytes.len() as u64) as usize);
    bytes
}

// Calls with short parts and scant rooms, as many as the bytes may need, or a few.
fn calls(random: &mut Random, len: usize) -> Vec<[u32; 2]> {
    let count = random.below(len as u64 + 4);
    (0..count).map(|_| [random.below(6) as u32, random.below(9) as u32]).collect()
}
