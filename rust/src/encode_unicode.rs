//! The API of the crate [`encode_unicode`](https://docs.rs/encode_unicode/1.0.0/encode_unicode/) 1.0.0, over the proved text.
//!
//! Names and signatures are those of that crate. The package `noddychest-encode-unicode` passes this module on as a library of the
//! same name, so a user of that crate changes one line of `Cargo.toml`.
//!
//! ```
//! use noddychest::encode_unicode::{CharExt, IterExt, SliceExt, Utf8Char};
//!
//! let e: Utf8Char = 'é'.to_utf8();
//! assert_eq!(e.as_str(), "é");
//! let decoded: Vec<_> = b"h\xC3\xA9\xFF".utf8char_indices().map(|(at, c, _)| (at, c.ok())).collect();
//! assert_eq!(decoded, [(0, Some(Utf8Char::from('h'))), (1, Some(e)), (3, None)]);
//! let bytes: Vec<u8> = [e, e].iter().to_bytes().collect();
//! assert_eq!(bytes, "éé".as_bytes());
//! ```

mod adapters;
#[cfg(feature = "alloc")]
mod collections;
mod comparisons;
mod extensions;
mod views;

pub use crate::proved::encode_unicode::{CharExt, U16UtfExt, U8UtfExt, Utf16Char, Utf8Char};
pub use extensions::{IterExt, SliceExt, StrExt};

pub mod error {
    //! Errors of the calls that convert.
    pub use crate::proved::encode_unicode::error::*;
}

pub mod iterator {
    //! Iterators, whose names are seldom needed.
    pub use super::adapters::{Utf16CharMerger, Utf16CharSplitter, Utf8CharMerger, Utf8CharSplitter};
    pub use crate::proved::encode_unicode::iterator::{
        Utf16CharDecoder, Utf16CharIndices, Utf16Chars, Utf16Iterator, Utf8CharDecoder, Utf8CharIndices, Utf8Chars, Utf8Iterator,
    };
}
