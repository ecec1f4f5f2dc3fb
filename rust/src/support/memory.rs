//! Vectors and strings that are passed an allocator, and return an error if an allocation fails: std's own inside.
use super::alloc::{AllocError, Allocator, Global};
#[cfg(not(feature = "alloc"))]
use super::no_memory::{String as StdString, Vec as StdVec};
#[cfg(feature = "alloc")]
use alloc::{string::String as StdString, vec::Vec as StdVec};
use core::ops::{Deref, DerefMut};

/// A vector of std, whose calls return an error if an allocation fails.
#[derive(Clone, Debug, PartialEq, Eq)]
#[repr(C)]
pub struct Vec<T, A = Global>(StdVec<T>, A);

impl<T, A: Allocator> Vec<T, A> {
    #[inline(always)]
    pub(crate) fn new(alloc: A) -> Vec<T, A> {
        Vec(StdVec::new(), alloc)
    }

    #[inline(always)]
    pub(crate) fn with_capacity(alloc: A, n: usize) -> Result<Vec<T, A>, AllocError> {
        let mut made = Vec::new(alloc);
        made.reserve(n)?;
        Ok(made)
    }

    #[inline(always)]
    pub(crate) fn reserve(&mut self, n: usize) -> Result<(), AllocError> {
        self.0.try_reserve(n).map_err(|_| AllocError)
    }

    #[inline(always)]
    pub(crate) fn push(&mut self, x: T) -> Result<(), AllocError> {
        self.reserve(1)?;
        self.0.push(x);
        Ok(())
    }

    #[inline(always)]
    pub(crate) fn extend_from_slice(&mut self, s: &[T]) -> Result<(), AllocError>
    where
        T: Copy,
    {
        self.reserve(s.len())?;
        self.0.extend_from_slice(s);
        Ok(())
    }

    /// Puts what another vector has in place of a part.
    #[inline(always)]
    pub(crate) fn splice(&mut self, part: core::ops::Range<usize>, new: Vec<T, A>) -> Result<(), AllocError> {
        self.reserve(new.0.len().saturating_sub(part.len()))?;
        self.0.splice(part, new.0);
        Ok(())
    }

    /// Adds one at the end where a proof shows that there is room. If there is none, std takes it.
    #[inline(always)]
    pub(crate) fn push_reserved(&mut self, x: T) {
        self.0.push(x);
    }

    #[inline(always)]
    pub(crate) fn as_mut_slice(&mut self) -> &mut [T] {
        &mut self.0
    }

    #[inline(always)]
    pub(crate) fn resize(&mut self, n: usize, x: T) -> Result<(), AllocError>
    where
        T: Copy,
    {
        self.reserve(n.saturating_sub(self.0.len()))?;
        self.0.resize(n, x);
        Ok(())
    }

    #[inline(always)]
    pub(crate) fn truncate(&mut self, n: usize) {
        self.0.truncate(n);
    }

    #[inline(always)]
    pub(crate) fn capacity(&self) -> usize {
        self.0.capacity()
    }

    #[inline(always)]
    pub(crate) fn as_slice(&self) -> &[T] {
        &self.0
    }

    #[inline(always)]
    pub(crate) fn allocator(&self) -> &A {
        &self.1
    }
}

#[cfg(feature = "alloc")]
impl<T> Vec<T, Global> {
    /// std's own vector, borrowed for calls that add to it.
    #[inline(always)]
    pub(crate) fn of(v: &mut StdVec<T>) -> &mut Vec<T, Global> {
        // SAFETY: `#[repr(C)]` lays this type out as its fields in turn: that vector, and `Global`, which has no size and the alignment 1. So both
        // types have one layout, and each value of one is a value of the other.
        unsafe { &mut *core::ptr::from_mut(v).cast() }
    }
}

impl<T, A> Deref for Vec<T, A> {
    type Target = [T];
    #[inline(always)]
    fn deref(&self) -> &[T] {
        &self.0
    }
}

impl<T, A> DerefMut for Vec<T, A> {
    #[inline(always)]
    fn deref_mut(&mut self) -> &mut [T] {
        &mut self.0
    }
}

/// A string of std, in the same way.
#[derive(Clone, Debug, PartialEq, Eq)]
#[repr(C)]
pub struct String<A = Global>(StdString, A);

impl<A: Allocator> String<A> {
    #[inline(always)]
    pub(crate) fn new(alloc: A) -> String<A> {
        String(StdString::new(), alloc)
    }

    #[inline(always)]
    pub(crate) fn push_str(&mut self, s: &str) -> Result<(), AllocError> {
        self.0.try_reserve(s.len()).map_err(|_| AllocError)?;
        self.0.push_str(s);
        Ok(())
    }
}

#[cfg(feature = "alloc")]
impl String<Global> {
    /// std's own string, borrowed for calls that add to it.
    #[inline(always)]
    pub(crate) fn of(s: &mut StdString) -> &mut String<Global> {
        // SAFETY: `#[repr(C)]` lays this type out as its fields in turn: that string, and `Global`, which has no size and the alignment 1. So both
        // types have one layout, and each value of one is a value of the other.
        unsafe { &mut *core::ptr::from_mut(s).cast() }
    }
}

/// What was recoded to UTF-8 as a string of std. The crate's own validation, which tests it, takes a fraction of the time of std's.
#[cfg(feature = "alloc")]
pub(crate) fn text_of(bytes: StdVec<u8>) -> StdString {
    assert!(crate::proved::cuts::valid_up_to(&bytes) == bytes.len(), "what is recoded to UTF-8 is UTF-8");
    // SAFETY: The bytes are UTF-8, all of them: the assertion has validated them.
    unsafe { StdString::from_utf8_unchecked(bytes) }
}
