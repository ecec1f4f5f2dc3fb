//! The calls of the library for C that recode and validate. On x86-64 it has their code for CPUs with and without AVX2, and
//! chooses when it is loaded. Here the level is named, so that a figure does not depend on the machine.

use std::ffi::c_int;

/// A level of x86-64.
#[derive(Clone, Copy)]
pub enum Level {
    V2,
    V3,
}

impl Level {
    pub fn of_name(name: &str) -> Option<Level> {
        match name {
            "v2" => Some(Level::V2),
            "v3" if unsafe { nody_lanes() } == 32 => Some(Level::V3),
            _ => None,
        }
    }
}

/// `nody_recoder_t`.
#[repr(C)]
struct Recoder {
    from: u8,
    to: u8,
    count: u8,
    held: [u8; 3],
    replaced: u64,
}

// As `c/noddychest.h` declares them, and c/processor.c those with the name of a level.
extern "C" {
    fn nody_lanes() -> c_int;
    fn nody_recoder(from: u8, to: u8) -> Recoder;
    fn nody_recoder_feed_v2(recoder: *mut Recoder, src: *const u8, len: usize, out: *mut u8, room: usize, read: *mut usize, written: *mut usize) -> u8;
    fn nody_recoder_finish(recoder: *mut Recoder, out: *mut u8, room: usize, written: *mut usize) -> u8;
    fn nody_utf8_valid_up_to_v2(bytes: *const u8, len: usize) -> usize;
    fn nody_utf8_valid_up_to_v3(bytes: *const u8, len: usize) -> usize;
    fn nody_utf16_valid_up_to_v2(units: *const u16, len: usize) -> usize;
    fn nody_utf16_valid_up_to_v3(units: *const u16, len: usize) -> usize;
}

pub fn valid_up_to(level: Level, bytes: &[u8]) -> usize {
    match level {
        Level::V2 => unsafe { nody_utf8_valid_up_to_v2(bytes.as_ptr(), bytes.len()) },
        Level::V3 => unsafe { nody_utf8_valid_up_to_v3(bytes.as_ptr(), bytes.len()) },
    }
}

pub fn units_valid_up_to(level: Level, units: &[u16]) -> usize {
    match level {
        Level::V2 => unsafe { nody_utf16_valid_up_to_v2(units.as_ptr(), units.len()) },
        Level::V3 => unsafe { nody_utf16_valid_up_to_v3(units.as_ptr(), units.len()) },
    }
}

/// The length of the output for these, fed in parts of `part` bytes. The output of each part is overwritten by the next.
pub fn in_parts(from: usize, to: usize, src: &[u8], part: usize, room: &mut [u8]) -> u64 {
    let mut recoder = unsafe { nody_recoder(from as u8, to as u8) };
    let made: usize = src.chunks(part).map(|piece| recoder.feed(piece, room)).sum();
    (made + recoder.finish(room)) as u64
}

/// The length of the output for short texts of `each` bytes, converted independently.
pub fn short(from: usize, to: usize, src: &[u8], each: usize, room: &mut [u8]) -> u64 {
    let one = |text: &[u8]| {
        let mut recoder = unsafe { nody_recoder(from as u8, to as u8) };
        let made = recoder.feed(text, room);
        made + recoder.finish(&mut room[made..])
    };
    src.chunks(each).map(one).sum::<usize>() as u64
}

impl Recoder {
    // How many bytes were written. The buffer is large enough for all.
    #[inline(always)]
    fn feed(&mut self, src: &[u8], room: &mut [u8]) -> usize {
        let (mut read, mut written) = (0, 0);
        unsafe { nody_recoder_feed_v2(self, src.as_ptr(), src.len(), room.as_mut_ptr(), room.len(), &mut read, &mut written) };
        written
    }

    #[inline(always)]
    fn finish(&mut self, room: &mut [u8]) -> usize {
        let mut written = 0;
        unsafe { nody_recoder_finish(self, room.as_mut_ptr(), room.len(), &mut written) };
        written
    }
}
