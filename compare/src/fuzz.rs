//! What libFuzzer calls: both sides are asked the same of each input that it makes.
#![no_main]

use compare::one_input::Input;
use std::sync::OnceLock;
use std::{env, panic, process, slice};

/// Whether transcoding alone is asked.
static RECODING: OnceLock<bool> = OnceLock::new();

/// Called once. The comparison expects some panics of the Rust crate; they are not printed.
#[no_mangle]
extern "C" fn LLVMFuzzerInitialize(_count: *mut i32, _arguments: *mut *mut *mut u8) -> i32 {
    panic::set_hook(Box::new(|_| {}));
    RECODING.get_or_init(|| env::var_os("COMPARE_RECODING").is_some());
    0
}

/// Called for each input. A difference is shown, and ends the program, by which libFuzzer keeps the input.
#[no_mangle]
extern "C" fn LLVMFuzzerTestOneInput(data: *const u8, len: usize) -> i32 {
    // An empty input may have no place.
    let list = match len {
        0 => &[],
        _ => unsafe { slice::from_raw_parts(data, len) },
    };
    let input = Input::of(list);
    let difference = match RECODING.get() {
        Some(true) => input.recoding_difference(),
        _ => input.difference(),
    };
    if let Some(difference) = difference {
        eprintln!("differs: {difference}");
        process::abort();
    }
    0
}
