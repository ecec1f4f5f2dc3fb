//! std's readers. Their traits are the same in Rattle.
#[cfg(feature = "std")]
pub(crate) use std::io::{Read, Result};
