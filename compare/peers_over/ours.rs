//! What the peers' tests call, over this project's library for C.
//!
//! A peer takes a maximal subpart (definition D93b of the Unicode standard) for one fault, but this project has a fault for each
//! byte. The length of such a subpart is computed by the library too: the longest prefix of what is left that begins the encoding of some
//! character, or one byte. `crates/utf_base` proves that it is a run of faults (`subparts_are_faults`).
#![allow(dead_code)]

#[repr(C)]
struct Piece {
    len: usize,
    scalar: u32,
    kind: u8,
}

#[repr(C)]
#[derive(Clone, Copy)]
struct Recoder {
    from: u8,
    to: u8,
    count: u8,
    held: [u8; 3],
    replaced: u64,
}

// `c/noddychest.h` has them.
extern "C" {
    fn nody_utf8_first(bytes: *const u8, len: usize) -> Piece;
    fn nody_utf8_last(bytes: *const u8, len: usize) -> Piece;
    fn nody_utf8_valid_up_to(bytes: *const u8, len: usize) -> usize;
    fn nody_recoder(from: u8, to: u8) -> Recoder;
    fn nody_recoder_feed(recoder: *mut Recoder, bytes: *const u8, len: usize, out: *mut u8, room: usize, read: *mut usize, written: *mut usize) -> u8;
    fn nody_recoder_finish(recoder: *mut Recoder, out: *mut u8, room: usize, written: *mut usize) -> u8;
}

/// The character that a piece is, and its length in bytes. `None` and 1 for an invalid byte, `None` and 0 for nothing.
type Answer = (Option<char>, usize);

fn answer(piece: Piece) -> Answer {
    (if piece.kind == 0 { char::from_u32(piece.scalar) } else { None }, piece.len)
}

pub fn first(bytes: &[u8]) -> Answer {
    answer(unsafe { nody_utf8_first(bytes.as_ptr(), bytes.len()) })
}

pub fn last(bytes: &[u8]) -> Answer {
    answer(unsafe { nody_utf8_last(bytes.as_ptr(), bytes.len()) })
}

/// The offset of the first invalid byte, or the length.
pub fn valid_up_to(bytes: &[u8]) -> usize {
    unsafe { nody_utf8_valid_up_to(bytes.as_ptr(), bytes.len()) }
}

/// Whether some character has a longer code that begins with these bytes.
pub fn begins_a_code(bytes: &[u8]) -> bool {
    // (each second byte that some first byte allows lies between two of these, and what follows it is free)
    const NEXT: [u8; 6] = [0x80, 0x8f, 0x90, 0x9f, 0xa0, 0xbf];
    let longer = |next: &u8, count: usize| [bytes, &[*next], &[0x80; 2][..count - 1]].concat();
    let is_code = |code: Vec<u8>| matches!(first(&code), (Some(_), len) if len == code.len());
    (1..=3).any(|count| NEXT.iter().any(|next| is_code(longer(next, count))))
}

/// How many bytes the maximal subpart has with which bytes begin that begin with no character.
pub fn subpart_len(bytes: &[u8]) -> usize {
    (1..=bytes.len().min(3)).rev().find(|&len| begins_a_code(&bytes[..len])).unwrap_or(1)
}

/// The character at the front, or the maximal subpart there.
pub fn first_subpart(bytes: &[u8]) -> Answer {
    match first(bytes) {
        (None, 1) => (None, subpart_len(bytes)),
        found => found,
    }
}

/// The character at the end, or the maximal subpart that ends there.
pub fn last_subpart(bytes: &[u8]) -> Answer {
    match last(bytes) {
        (None, 1) => {
            let ends = |len: &usize| begins_a_code(&bytes[bytes.len() - len..]);
            (None, (1..=bytes.len().min(3)).rev().find(ends).unwrap_or(1))
        }
        found => found,
    }
}

/// Where the first fault is, and the length of its subpart, or `None` if more bytes could complete it.
pub fn fault(bytes: &[u8]) -> Option<(usize, Option<usize>)> {
    let at = valid_up_to(bytes);
    let rest = &bytes[at..];
    if rest.is_empty() {
        return None;
    }
    let len = subpart_len(rest);
    let is_cut_short = len == rest.len() && begins_a_code(rest);
    Some((at, if is_cut_short { None } else { Some(len) }))
}

/// The characters, with as many U+FFFD for a maximal subpart as is said of its length.
pub fn lossy(mut bytes: &[u8], count: impl Fn(usize) -> usize) -> String {
    let mut text = String::new();
    while !bytes.is_empty() {
        let (found, len) = first_subpart(bytes);
        match found {
            Some(character) => text.push(character),
            None => text.extend(std::iter::repeat('\u{fffd}').take(count(len))),
        }
        bytes = &bytes[len..];
    }
    text
}

/// What a form is called in C.
pub const UTF8: u8 = 0;
pub const UTF16LE: u8 = 1;

/// Transcodes all of the input into room of a fixed size, as far as it goes: how much was read and written, and whether that was all.
pub fn recode_into(from: u8, to: u8, bytes: &[u8], out: &mut [u8]) -> (usize, usize, bool) {
    unsafe {
        let (mut recoder, mut read, mut written, mut last) = (nody_recoder(from, to), 0, 0, 0);
        let mut status = nody_recoder_feed(&mut recoder, bytes.as_ptr(), bytes.len(), out.as_mut_ptr(), out.len(), &mut read, &mut written);
        let held = recoder.count as usize;
        if status == 0 {
            status = nody_recoder_finish(&mut recoder, out.as_mut_ptr().add(written), out.len() - written, &mut last);
        }
        // (what is held and has no room is not given out yet)
        (if status == 0 { read } else { read - held }, written + last, status == 0)
    }
}

/// All of the input converted, in two parts.
pub fn recode(from: u8, to: u8, bytes: &[u8], at: usize) -> Vec<u8> {
    unsafe {
        let (mut recoder, mut out, mut made) = (nody_recoder(from, to), vec![0; 3 * bytes.len() + 16], 0);
        for part in [&bytes[..at], &bytes[at..]] {
            let (mut read, mut written) = (0, 0);
            let room = out.len() - made;
            assert_eq!(0, nody_recoder_feed(&mut recoder, part.as_ptr(), part.len(), out.as_mut_ptr().add(made), room, &mut read, &mut written));
            assert_eq!(part.len(), read);
            made += written;
        }
        let mut written = 0;
        assert_eq!(0, nody_recoder_finish(&mut recoder, out.as_mut_ptr().add(made), out.len() - made, &mut written));
        out.truncate(made + written);
        out
    }
}
