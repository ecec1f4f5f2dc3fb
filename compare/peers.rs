//! Reads random bytes by bstr from the front, from the end and from both ends, and counts the inputs on which the pieces differ.
//!
//! usage: peers COUNT
use bstr::ByteSlice;

const EDGES: [u8; 20] = [
    0x41, 0x80, 0x82, 0x8f, 0x90, 0x9f, 0xa0, 0xbf, 0xc0, 0xc2, 0xdf, 0xe0, 0xe2, 0xed, 0xef, 0xf0, 0xf1, 0xf4, 0xf5, 0xff,
];

fn main() {
    let count: u64 = std::env::args().nth(1).and_then(|it| it.parse().ok()).unwrap_or(0);
    let (mut chance, mut differ) = (1u64, 0);
    for _ in 0..count {
        let mut bytes = [0; 8];
        for byte in &mut bytes {
            chance = chance.wrapping_mul(6364136223846793005).wrapping_add(1442695040888963407);
            *byte = EDGES[(chance >> 33) as usize % EDGES.len()];
        }
        let pieces: Vec<_> = bytes.char_indices().collect();
        let mut back: Vec<_> = bytes.char_indices().rev().collect();
        back.reverse();
        let (mut ends, mut front, mut last) = (bytes.char_indices(), vec![], vec![]);
        while let Some(piece) = ends.next() {
            front.push(piece);
            last.extend(ends.next_back());
        }
        last.reverse();
        front.append(&mut last);
        differ += (back != pieces || front != pieces) as u64;
    }
    println!("bstr {}: {count} inputs, {differ} differ", env!("BSTR"));
    std::process::exit((differ != 0) as i32);
}
