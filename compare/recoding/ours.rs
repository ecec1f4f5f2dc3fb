//! The recoder of the library for C, and the calls beside it.
//!
//! A form is a number: 0 for UTF-8, 1 and 2 for UTF-16 with the low and with the high byte first. On x86-64 the library has these
//! calls for CPUs with and without AVX2: both are asked, if this CPU has it, and have to return the same.

/// `nody_recoder_t`.
#[derive(Clone, Copy)]
#[repr(C)]
struct Recoder {
    from: u8,
    to: u8,
    count: u8,
    held: [u8; 3],
    replaced: u64,
}

type Feed = unsafe extern "C" fn(*mut Recoder, *const u8, usize, *mut u8, usize, *mut usize, *mut usize) -> u8;
type Finish = unsafe extern "C" fn(*mut Recoder, *mut u8, usize, *mut usize) -> u8;

// As `c/noddychest.h` declares them.
extern "C" {
    fn nody_recoder(from: u8, to: u8) -> Recoder;
    fn nody_recoder_finish(recoder: *mut Recoder, out: *mut u8, room: usize, written: *mut usize) -> u8;
    fn nody_recoder_finish_lossy(recoder: *mut Recoder, out: *mut u8, room: usize, written: *mut usize) -> u8;
    fn nody_shard_end(from: u8, bytes: *const u8, len: usize, at: usize) -> usize;
}

/// The calls that the library has at two levels of x86-64.
struct Level {
    feed: Feed,
    feed_lossy: Feed,
    valid_up_to: unsafe extern "C" fn(*const u8, usize) -> usize,
    units_valid_up_to: unsafe extern "C" fn(*const u16, usize) -> usize,
}

/// `level!(NAME: ..)`: a constant with four calls, which are declared as their types say.
macro_rules! level {
    ($name:ident: $feed:ident, $feed_lossy:ident, $valid:ident, $units_valid:ident) => {
        extern "C" {
            fn $feed(recoder: *mut Recoder, src: *const u8, len: usize, out: *mut u8, room: usize, read: *mut usize, written: *mut usize) -> u8;
            fn $feed_lossy(recoder: *mut Recoder, src: *const u8, len: usize, out: *mut u8, room: usize, read: *mut usize, written: *mut usize) -> u8;
            fn $valid(bytes: *const u8, len: usize) -> usize;
            fn $units_valid(units: *const u16, len: usize) -> usize;
        }
        const $name: Level = Level { feed: $feed, feed_lossy: $feed_lossy, valid_up_to: $valid, units_valid_up_to: $units_valid };
    };
}

#[cfg(target_arch = "x86_64")]
mod levels {
    use super::{Level, Recoder};
    level!(V2: nody_recoder_feed_v2, nody_recoder_feed_lossy_v2, nody_utf8_valid_up_to_v2, nody_utf16_valid_up_to_v2);
    level!(V3: nody_recoder_feed_v3, nody_recoder_feed_lossy_v3, nody_utf8_valid_up_to_v3, nody_utf16_valid_up_to_v3);

    extern "C" {
        fn nody_lanes() -> i32;
    }

    pub(super) fn all() -> &'static [Level] {
        if unsafe { nody_lanes() } == 32 { &[V2, V3] } else { &[V2] }
    }
}

#[cfg(not(target_arch = "x86_64"))]
mod levels {
    use super::{Level, Recoder};
    level!(ONLY: nody_recoder_feed, nody_recoder_feed_lossy, nody_utf8_valid_up_to, nody_utf16_valid_up_to);

    pub(super) fn all() -> &'static [Level] {
        &[ONLY]
    }
}

/// What the call returns at each level, if that is the same.
fn agreed<T: PartialEq>(call: impl Fn(&Level) -> Option<T>) -> Option<T> {
    let mut answers = levels::all().iter().map(call);
    let first = answers.next()?;
    answers.all(|other| other == first).then_some(first)?
}

/// How each form is named.
pub const FORMS: [&str; 3] = ["utf8", "utf16le", "utf16be"];

/// All pairs of forms.
pub fn pairs() -> impl Iterator<Item = (usize, usize)> {
    (0..9).map(|pair| (pair / 3, pair % 3))
}

/// A recoder, what it is fed yet, and a buffer for what it writes, which is always large enough.
struct Run<'a> {
    recoder: Recoder,
    rest: &'a [u8],
    out: Vec<u8>,
    written: usize,
    is_full: bool,
}

impl<'a> Run<'a> {
    fn new(from: usize, to: usize, src: &'a [u8]) -> Run<'a> {
        let recoder = unsafe { nody_recoder(from as u8, to as u8) };
        Run { recoder, rest: src, out: vec![0; 3 * src.len() + 16], written: 0, is_full: false }
    }

    /// Feeds at most `len` bytes, with `room` bytes of the buffer.
    fn feed(&mut self, call: Feed, len: usize, room: usize) {
        let (len, out) = (len.min(self.rest.len()), &mut self.out[self.written..]);
        let (mut read, mut written) = (0, 0);
        let room = room.min(out.len());
        let status = unsafe { call(&mut self.recoder, self.rest.as_ptr(), len, out.as_mut_ptr(), room, &mut read, &mut written) };
        self.rest = &self.rest[read..];
        self.written += written;
        self.is_full = status != 0;
    }

    /// Ends the input, and gives so much of the buffer.
    fn finish(&mut self, call: Finish, room: usize) {
        let out = &mut self.out[self.written..];
        let mut written = 0;
        let status = unsafe { call(&mut self.recoder, out.as_mut_ptr(), room.min(out.len()), &mut written) };
        self.written += written;
        self.is_full |= status != 0;
    }

    /// What was written, if all was read and had room.
    fn made(mut self) -> Option<Vec<u8>> {
        self.out.truncate(self.written);
        (!self.is_full && self.rest.is_empty()).then_some(self.out)
    }
}

/// What the recoder makes, fed in parts of these lengths and then the rest.
pub fn recode(from: usize, to: usize, src: &[u8], lengths: &[u32]) -> Option<Vec<u8>> {
    agreed(|level| {
        let mut run = Run::new(from, to, src);
        for len in lengths {
            run.feed(level.feed, *len as usize, usize::MAX);
        }
        run.feed(level.feed, usize::MAX, usize::MAX);
        run.finish(nody_recoder_finish, usize::MAX);
        run.made()
    })
}

/// What it makes by calls with a part of some length and room of some size each, and then one with the rest and ample room;
/// the end goes into room for `last` bytes, and then into ample room.
pub fn recode_into(from: usize, to: usize, src: &[u8], calls: &[[u32; 2]], last: usize) -> Option<Vec<u8>> {
    agreed(|level| {
        let mut run = fed(level.feed, from, to, src, calls);
        let is_full = run.is_full;
        run.finish(nody_recoder_finish, last);
        run.is_full = is_full;
        run.finish(nody_recoder_finish, usize::MAX);
        run.made()
    })
}

/// What it makes with one U+FFFD for each maximal subpart, by such calls, and then one with the rest and ample room, which the end
/// has too.
pub fn recode_lossy(from: usize, to: usize, src: &[u8], calls: &[[u32; 2]]) -> Option<Vec<u8>> {
    agreed(|level| {
        let mut run = fed(level.feed_lossy, from, to, src, calls);
        run.finish(nody_recoder_finish_lossy, usize::MAX);
        run.made()
    })
}

fn fed<'a>(feed: Feed, from: usize, to: usize, src: &'a [u8], calls: &[[u32; 2]]) -> Run<'a> {
    let mut run = Run::new(from, to, src);
    for [len, room] in calls {
        run.feed(feed, *len as usize, *room as usize);
    }
    run.feed(feed, usize::MAX, usize::MAX);
    run
}

/// The offset of the first invalid byte, or the length; `None` if the levels differ.
pub fn valid_up_to(src: &[u8]) -> Option<usize> {
    agreed(|level| Some(unsafe { (level.valid_up_to)(src.as_ptr(), src.len()) }))
}

pub fn units_valid_up_to(src: &[u16]) -> Option<usize> {
    agreed(|level| Some(unsafe { (level.units_valid_up_to)(src.as_ptr(), src.len()) }))
}

pub fn shard_end(from: usize, src: &[u8], at: usize) -> usize {
    unsafe { nody_shard_end(from as u8, src.as_ptr(), src.len(), at) }
}
