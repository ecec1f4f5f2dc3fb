//! Vectors and strings of std without an allocator: each stays empty, and every allocation fails.
//!
//! So the proved text is the same with `alloc` and without; what then always fails has no public name. What std does to a vector that has
//! room, `memory.rs` asks for only after that room was granted: here it is never asked for more than nothing.
use super::alloc::AllocError;
use core::ops::{Deref, DerefMut, Range};

fn granted(n: usize) -> Result<(), AllocError> {
    if n == 0 {
        Ok(())
    } else {
        Err(AllocError)
    }
}

/// A vector that stays empty.
#[derive(Clone, Debug, PartialEq, Eq)]
pub struct Vec<T>([T; 0]);

impl<T> Vec<T> {
    pub(crate) fn new() -> Vec<T> {
        Vec([])
    }
    pub(crate) fn try_reserve(&mut self, n: usize) -> Result<(), AllocError> {
        granted(n)
    }
    pub(crate) fn capacity(&self) -> usize {
        0
    }
    pub(crate) fn push(&mut self, _: T) {}
    pub(crate) fn extend_from_slice(&mut self, _: &[T]) {}
    pub(crate) fn splice(&mut self, _: Range<usize>, _: Vec<T>) {}
    pub(crate) fn resize(&mut self, _: usize, _: T) {}
    pub(crate) fn truncate(&mut self, _: usize) {}
}

impl<T> Deref for Vec<T> {
    type Target = [T];
    fn deref(&self) -> &[T] {
        &self.0
    }
}

impl<T> DerefMut for Vec<T> {
    fn deref_mut(&mut self) -> &mut [T] {
        &mut self.0
    }
}

/// A string that stays empty.
#[derive(Clone, Debug, PartialEq, Eq)]
pub struct String;

impl String {
    pub(crate) fn new() -> String {
        String
    }
    pub(crate) fn try_reserve(&mut self, n: usize) -> Result<(), AllocError> {
        granted(n)
    }
    pub(crate) fn push_str(&mut self, _: &str) {}
}
