//! The results of a crate with the names of `encode_unicode`, which is `side` in the module above.
//!
//! The text is compiled twice: over this project in `ours`, and over the Rust crate in `theirs`. Both results for an input have the
//! same numbers in the same order. A number that is no character, or bytes that are no text, add nothing.

use super::side;

mod by_calls;
mod characters;
mod collections;
mod errors;
mod mergers;
mod unit_decoder;

pub use by_calls::*;
pub use characters::*;
pub use collections::*;
pub use errors::*;
pub use mergers::*;
pub use unit_decoder::*;
