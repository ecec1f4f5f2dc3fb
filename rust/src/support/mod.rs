//! What the proved text takes of Rattle's std: there this module is `std`.
//!
//! Written by hand, and tested; nothing here is proved. Each module says what the proofs take for granted of it.

pub(crate) mod alloc;
#[cfg(feature = "c")]
pub(crate) mod c;
pub(crate) mod io;
pub(crate) mod memory;
#[cfg(not(feature = "alloc"))]
mod no_memory;
pub(crate) mod processor;
pub(crate) mod simd;
#[cfg(noddychest_trusted)]
pub(crate) mod trust;

// What is the same in Rust.
#[allow(unused_imports)]
pub(crate) use core::{array, ascii, borrow, char, cmp, convert, error, fmt, hash, iter, marker, mem, num, ops, slice, str};

/// The names of this module for the copy of the proved text for CPUs with AVX2: its vectors have 32 bytes.
#[cfg(all(target_arch = "x86_64", target_feature = "sse2", feature = "std"))]
#[allow(unused_imports)]
pub(crate) mod wide {
    pub(crate) use super::{alloc, cmp, fmt, io, marker, mem, ops};
    pub(crate) mod simd {
        pub(crate) use crate::support::simd::{wide as prelude, ToBytes};
    }
}
