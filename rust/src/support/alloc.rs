//! That an allocation failed, and whom it was asked of.
use core::fmt;

/// That an allocation failed, or that a `usize` cannot count what was asked for.
///
/// ```
/// # #[cfg(feature = "alloc")] {
/// use noddychest::{AllocError, PieceTable};
/// let table: Result<PieceTable, AllocError> = PieceTable::try_new(b"a\xFF");
/// assert_eq!(table.unwrap().pieces().count(), 2);
/// # }
/// ```
#[derive(Clone, Copy, Debug, PartialEq, Eq, Hash)]
#[non_exhaustive]
pub struct AllocError;

impl fmt::Display for AllocError {
    fn fmt(&self, f: &mut fmt::Formatter<'_>) -> fmt::Result {
        f.write_str("memory allocation failed")
    }
}

impl core::error::Error for AllocError {}

/// An error of the kind [`OutOfMemory`](std::io::ErrorKind::OutOfMemory).
#[cfg(feature = "std")]
impl From<AllocError> for std::io::Error {
    fn from(error: AllocError) -> std::io::Error {
        std::io::Error::new(std::io::ErrorKind::OutOfMemory, error)
    }
}

/// Whom memory is asked of. Stable Rust has one, the global one, so this is a mark alone.
pub trait Allocator {}

/// The global allocator.
#[derive(Clone, Copy, Debug, Default, PartialEq, Eq)]
pub struct Global;

impl Allocator for Global {}
