//! Transcoding by iconv(3) of the C library.

use std::ffi::{c_char, c_int, c_void, CString};

extern "C" {
    fn iconv_open(to: *const c_char, from: *const c_char) -> *mut c_void;
    fn iconv(handle: *mut c_void, src: *mut *const u8, left: *mut usize, out: *mut *mut u8, room: *mut usize) -> usize;
    fn iconv_close(handle: *mut c_void) -> c_int;
}

/// What ends one call of iconv(3).
#[derive(PartialEq)]
enum End {
    /// The part's end.
    Part,
    /// A code that the part's end cuts off.
    CutOff,
    /// A fault.
    Fault,
}

/// The length of the output for these, fed in parts of `part` bytes into a buffer of three times that size. What iconv leaves
/// of a part begins the next one. For input that it rejects U+FFFD is written.
pub fn in_parts(from: usize, to: usize, src: &[u8], part: usize, out: &mut [u8]) -> u64 {
    let name = |form: usize| CString::new(["UTF-8", "UTF-16LE", "UTF-16BE"][form]).expect("no zero");
    let handle = unsafe { iconv_open(name(to).as_ptr(), name(from).as_ptr()) };
    assert!(handle as isize != -1, "iconv knows the forms");
    let (mut done, mut total) = (0, 0);
    while done < src.len() {
        let part = &src[done..src.len().min(done + part)];
        let (used, made, end) = convert(handle, part, out);
        total += made as u64;
        done += used;
        let is_last = src.len() - done == part.len() - used;
        if end == End::Fault || end == End::CutOff && is_last {
            total += [3, 2, 2][to];
            done += [1, 2, 2][from].min(src.len() - done);
        }
    }
    unsafe { iconv_close(handle) };
    total
}

// One call: how many bytes of the part are taken, how many came out, and what ended it.
fn convert(handle: *mut c_void, part: &[u8], out: &mut [u8]) -> (usize, usize, End) {
    const EILSEQ: i32 = 84;
    let (mut src, mut left) = (part.as_ptr(), part.len());
    let (mut place, mut room) = (out.as_mut_ptr(), out.len());
    let answer = unsafe { iconv(handle, &mut src, &mut left, &mut place, &mut room) };
    let end = match std::io::Error::last_os_error().raw_os_error() {
        _ if answer != usize::MAX => End::Part,
        Some(EILSEQ) => End::Fault,
        _ => End::CutOff,
    };
    (part.len() - left, out.len() - room, end)
}
