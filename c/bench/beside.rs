//! The calls of the crate for Cargo that bench.c compares with those of the library for C.

use noddychest::{Encoding, Recoder};
use std::slice;

// How many bytes are fed at a time.
const PART: usize = 4096;

/// How many bytes the text becomes in UTF-16LE, fed in parts.
///
/// # Safety
///
/// The pointers are valid for the numbers after them.
#[no_mangle]
pub unsafe extern "C" fn rust_widen(src: *const u8, len: usize, out: *mut u8, room: usize) -> usize {
    feed_all(Recoder::new(Encoding::Utf8, Encoding::Utf16Le), slice::from_raw_parts(src, len), slice::from_raw_parts_mut(out, room))
}

/// How many bytes such UTF-16 becomes in UTF-8.
///
/// # Safety
///
/// The pointers are valid for the numbers after them.
#[no_mangle]
pub unsafe extern "C" fn rust_narrow(src: *const u8, len: usize, out: *mut u8, room: usize) -> usize {
    feed_all(Recoder::new(Encoding::Utf16Le, Encoding::Utf8), slice::from_raw_parts(src, len), slice::from_raw_parts_mut(out, room))
}

// The output of each part is overwritten by that of the next.
fn feed_all(mut recoder: Recoder, src: &[u8], room: &mut [u8]) -> usize {
    let made: usize = src.chunks(PART).map(|part| recoder.feed(part, room).written).sum();
    made + recoder.finish(room).written
}

/// How many of the bytes are UTF-8.
///
/// # Safety
///
/// The pointer is valid for the length.
#[no_mangle]
pub unsafe extern "C" fn rust_valid_up_to(src: *const u8, len: usize) -> usize {
    noddychest::valid_up_to(slice::from_raw_parts(src, len))
}

/// The sum of the scalar values of the bytes.
///
/// # Safety
///
/// The pointer is valid for the length.
#[no_mangle]
pub unsafe extern "C" fn rust_scalars(src: *const u8, len: usize) -> u64 {
    let pieces = noddychest::pieces(slice::from_raw_parts(src, len));
    pieces.filter_map(|piece| piece.char()).map(u64::from).fold(0, u64::wrapping_add)
}
