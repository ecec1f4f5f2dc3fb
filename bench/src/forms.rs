//! The encodings of text in bytes.

use crate::inputs::Input;
use std::ffi::c_int;

/// The names of the forms. Everywhere a form is its position in this list, as in the header of the library for C.
pub const NAMES: [&str; 3] = ["utf8", "utf16le", "utf16be"];

/// The form of that name.
pub fn of_name(name: &str) -> Option<usize> {
    NAMES.iter().position(|known| *known == name)
}

/// The bytes of the input in a form.
pub fn bytes_in(form: usize, input: &Input) -> Vec<u8> {
    match form {
        0 => input.bytes.clone(),
        _ => bytes_of_units(form, &input.units),
    }
}

/// The bytes of units in a form of UTF-16.
pub fn bytes_of_units(form: usize, units: &[u16]) -> Vec<u8> {
    match form {
        1 => units.iter().flat_map(|unit| unit.to_le_bytes()).collect(),
        _ => units.iter().flat_map(|unit| unit.to_be_bytes()).collect(),
    }
}

extern "C" {
    fn mallopt(kind: c_int, value: c_int) -> c_int;
}

/// From now on memory that is freed is kept for the next call, and not handed back to the system: or else a list of
/// 100 KiB, which both sides make, costs more than the work over it.
pub fn keep_memory() {
    const TRIM_THRESHOLD: c_int = -1;
    const MMAP_THRESHOLD: c_int = -3;
    for kind in [TRIM_THRESHOLD, MMAP_THRESHOLD] {
        // Sets a bound within malloc, and reads and writes nothing else.
        unsafe { mallopt(kind, 1 << 30) };
    }
}
