//! Decodes damaged UTF-8 and UTF-16 without losing a byte.
//!
//! [`pieces`] splits any bytes into characters and single invalid bytes, each with its offset, its length and the reason why it is
//! invalid. From the front, from the end, from both ends or in parts, the split is the same. [`Recoder`] converts between UTF-8 and
//! both byte orders of UTF-16, and replaces what is invalid, by U+FFFD or by what a table of [`Repair`] has for it, or stops at it.
//! [`faults`] lists only what is invalid, and [`Decoder`] splits input that comes in parts. [`encode_unicode`] has the whole API of the
//! crate of that name: characters kept as UTF-8 or UTF-16, and iterators over any source.
//!
//! ```
//! use noddychest::{pieces, FaultKind};
//!
//! let listed: Vec<_> = pieces(b"h\xC3\xA9\xE2\x82A")
//!     .map(|piece| (piece.offset, piece.len, piece.result.map_err(|fault| fault.kind())))
//!     .collect();
//! assert_eq!(
//!     listed,
//!     [
//!         (0, 1, Ok('h')),
//!         (1, 2, Ok('é')),
//!         (3, 1, Err(FaultKind::InterruptedSequence)),
//!         (4, 1, Err(FaultKind::UnexpectedContinuationByte)),
//!         (5, 1, Ok('A')),
//!     ]
//! );
//! ```
//!
//! # One U+FFFD for each invalid byte
//!
//! An invalid byte is a piece of its own. [`String::from_utf8_lossy`] and browsers take up to three bytes of a truncated character
//! as one error, so they show fewer U+FFFD for the same input; [`recode_lossy`] and [`Recoder::lossy`] write what they do. Which bytes are
//! valid is the same.
//!
//! # Text with bytes of another encoding in it
//!
//! Text that is UTF-8 for the most part often has bytes of Windows-1252 in it. [`Recoder::repair`], [`recode_repaired`] and
//! [`decode_repaired`] write the characters that these bytes were meant to be, by a table of [`Repair`].
//!
//! # What is proved
//!
//! Every result of the source is machine-proved. The source is Rust with contracts; a script takes the contracts away, and what is left
//! is compiled here by rustc. That script, and what is around that text, are tested and not proved. By default every index is
//! tested, so memory safety rests on rustc and on the few places that are `unsafe`, which the package's `UNSAFE.md` lists.
//!
//! Whoever builds a program may leave those tests out, by `RUSTFLAGS="--cfg noddychest_trusted"`, on targets of 64 bits: memory safety then
//! rests on the proofs and on the script too. It is no feature, since cargo gives all crates of a build the features that any of them
//! asks for: a library would decide it for each program that uses it.
//!
//! # Features
//!
//! - `std` (on by default): [`io`] and [`parallel`], `Read`, and on x86-64 AVX2 or SSSE3 if the CPU has it.
//! - `alloc`: [`recode`] and its kin, [`PieceTable`], [`TextBuffer`], and what gives or takes a `Vec` or a `String`. All else needs only `core`.
//! - `c`: the functions of the library for C, for the package `noddychest-c`.
//!
//! # Platforms
//!
//! It is written for every target of rustc of 32 or 64 bits, and was run on Linux on x86-64.
//! On ARM64 the library for C, the programs, the Rust crate's calls for C and the package for Python ran only in QEMU.
//!
//! [`String::from_utf8_lossy`]: https://doc.rust-lang.org/std/string/struct.String.html#method.from_utf8_lossy
#![cfg_attr(docsrs, feature(doc_cfg))]
#![cfg_attr(not(feature = "std"), no_std)]
#![cfg_attr(not(feature = "std"), allow(rustdoc::broken_intra_doc_links))]

#[cfg(feature = "alloc")]
extern crate alloc;

#[cfg(target_pointer_width = "16")]
compile_error!("a target of 16 bits is too small: the code of a character is kept in a `usize`");

#[cfg(all(noddychest_trusted, not(target_pointer_width = "64")))]
compile_error!("the trusted mode is for targets of 64 bits: in the proofs a `usize` has 64");

mod bytes;
mod decoder;
pub mod encode_unicode;
pub mod encodings;
mod fault;
#[cfg(feature = "std")]
pub mod io;
#[cfg(feature = "std")]
pub mod parallel;
pub mod parts;
mod piece;
mod pieces;
mod position;
/// What `scripts/erase` made of the proved text. (It keeps laws, which are functions that do nothing, and what only the programs use.)
#[cfg_attr(not(noddychest_trusted), path = "proved/checked/mod.rs")]
#[cfg_attr(noddychest_trusted, path = "proved/trusted/mod.rs")]
#[allow(dead_code, improper_ctypes_definitions, unused_imports, unused_labels, unused_variables)]
#[rustfmt::skip]
#[allow(missing_debug_implementations, clippy::all, clippy::pedantic, clippy::undocumented_unsafe_blocks)]
#[warn(clippy::incompatible_msrv)]
mod proved;
#[cfg(feature = "alloc")]
mod recode;
mod recoder;
mod repair;
#[allow(dead_code)]
mod support;
mod survey;
#[cfg(feature = "alloc")]
mod table;
#[cfg(feature = "alloc")]
mod text_buffer;
pub mod units;

pub use bytes::{
    boundary_after, boundary_before, char_count, faults, first, last, number_of, offset_of, pieces, streamed_at, valid_up_to,
};
pub use decoder::{undecided_len, Decoder};
pub use fault::{Fault, FaultKind};
pub use piece::Piece;
pub use pieces::{Faults, Pieces};
pub use position::{positions, Position, Positions};
#[cfg(feature = "alloc")]
pub use proved::cuts::{Change, Counts};
#[cfg(feature = "alloc")]
pub use recode::{
    decode, decode_lossy, decode_repaired, decode_strict, recode, recode_lossy, recode_repaired, recode_strict, try_recode,
};
pub use recoder::{
    changed_range, encoding_of_bom, recoded_len, recoded_len_max, shard_end, Encoding, Progress, Recoder, Status, UnknownEncoding,
};
pub use repair::{NonBmpChar, Repair};
pub use support::alloc::AllocError;
pub use survey::{guess, survey, Guess, Guesses, Survey, Surveyor, UnitCounts, Utf8Counts};
#[cfg(feature = "alloc")]
pub use table::{PieceTable, TablePieces};
#[cfg(feature = "alloc")]
pub use text_buffer::{BufferBytes, BufferPieces, TextBuffer};

/// Whether this CPU has what the crate needs. It needs nothing: if the CPU lacks what some code uses, other code runs.
///
/// ```
/// assert!(noddychest::is_supported());
/// ```
#[must_use]
pub fn is_supported() -> bool {
    true
}

/// Structs to which more fields may come: another crate cannot name all fields of one in a pattern, nor write them all. None of these
/// compiles:
///
/// ```compile_fail,E0638
/// let noddychest::Piece { offset, len, result } = noddychest::first(b"a").unwrap();
/// ```
/// ```compile_fail,E0639
/// let piece = noddychest::Piece { offset: 0, len: 1, result: Ok('a') };
/// ```
/// ```compile_fail,E0638
/// let noddychest::Progress { read, written, status } = noddychest::Progress::new(0, 0, noddychest::Status::Done);
/// ```
/// ```compile_fail,E0639
/// let did = noddychest::Progress { read: 0, written: 0, status: noddychest::Status::Done };
/// ```
/// ```compile_fail,E0638
/// let noddychest::Survey { len, nul, control, utf8, utf16le, utf16be, front, head, tail } = noddychest::survey(b"");
/// ```
/// ```compile_fail,E0639
/// let survey = noddychest::Survey { len: 1, ..noddychest::survey(b"") };
/// ```
/// ```compile_fail,E0638
/// let noddychest::Utf8Counts { chars, faults, third, signs, undefined, surrogates, twice, twice_chars } = noddychest::survey(b"").utf8;
/// ```
/// ```compile_fail,E0639
/// let counts = noddychest::Utf8Counts { chars: 1, ..noddychest::survey(b"").utf8 };
/// ```
/// ```compile_fail,E0638
/// let noddychest::UnitCounts { plain, stray, unpaired } = noddychest::survey(b"").utf16le;
/// ```
/// ```compile_fail,E0639
/// let counts = noddychest::UnitCounts { plain: 1, ..noddychest::survey(b"").utf16le };
/// ```
/// ```compile_fail,E0638
/// let noddychest::Counts { bytes, pieces, faults, line_feeds } = noddychest::Counts::default();
/// ```
/// ```compile_fail,E0639
/// let counts = noddychest::Counts { bytes: 1, pieces: 1, faults: 0, line_feeds: 0 };
/// ```
/// ```compile_fail,E0638
/// let noddychest::Change { offset, number, gone, come } = noddychest::Change::default();
/// ```
/// ```compile_fail,E0639
/// let change = noddychest::Change { offset: 1, ..noddychest::Change::default() };
/// ```
///
/// This does:
///
/// ```
/// let noddychest::Piece { offset, result, .. } = noddychest::first(b"a").unwrap();
/// assert_eq!((offset, result), (0, Ok('a')));
/// ```
#[cfg(all(doctest, feature = "alloc"))]
struct MoreFieldsMayCome;

/// The example of the README.
#[cfg(all(doctest, feature = "std"))]
#[doc = include_str!("../README.md")]
struct Readme;
