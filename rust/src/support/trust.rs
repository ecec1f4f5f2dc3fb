//! What the proofs rule out, untested. The trusted text alone uses it: there each use is proved, for a `usize` of 64 bits.
//!
//! With debug assertions each is tested all the same.
use core::ops::{Index, IndexMut, Range, RangeFrom, RangeFull, RangeInclusive, RangeTo};

/// An index, or a range, that is in bounds. Of text it is also at boundaries of characters.
pub(crate) struct At<I>(pub(crate) I);

macro_rules! places {
    ($($kind:ty),*) => { $(
        impl<T> Index<At<$kind>> for [T] {
            type Output = <[T] as Index<$kind>>::Output;
            #[inline(always)]
            #[track_caller]
            fn index(&self, at: At<$kind>) -> &Self::Output {
                debug_assert!(self.get(at.0.clone()).is_some());
                // SAFETY: only the trusted copy of the proved text uses it, in places of which a goal of its proof says that they are in bounds.
                unsafe { self.get_unchecked(at.0) }
            }
        }
        impl<T> IndexMut<At<$kind>> for [T] {
            #[inline(always)]
            #[track_caller]
            fn index_mut(&mut self, at: At<$kind>) -> &mut Self::Output {
                debug_assert!(self.get(at.0.clone()).is_some());
                // SAFETY: only the trusted copy of the proved text writes by it, in places of which a goal of its proof says that they are in
                // bounds.
                unsafe { self.get_unchecked_mut(at.0) }
            }
        }
    )* };
}
places!(usize, Range<usize>, RangeFrom<usize>, RangeTo<usize>, RangeInclusive<usize>, RangeFull);

macro_rules! spans {
    ($($kind:ty),*) => { $(
        impl Index<At<$kind>> for str {
            type Output = str;
            #[inline(always)]
            #[track_caller]
            fn index(&self, at: At<$kind>) -> &str {
                debug_assert!(self.get(at.0.clone()).is_some());
                // SAFETY: only the trusted copy of the proved text uses it, where a goal of its proof says that the place is in bounds, and that a
                // character begins or ends there.
                unsafe { self.get_unchecked(at.0) }
            }
        }
    )* };
}
spans!(Range<usize>, RangeFrom<usize>, RangeTo<usize>);

/// What a proof shows to be there.
pub(crate) trait ByProof<T> {
    fn by_proof(self) -> T;
}

impl<T> ByProof<T> for Option<T> {
    #[inline(always)]
    #[track_caller]
    fn by_proof(self) -> T {
        debug_assert!(self.is_some());
        // SAFETY: only the trusted copy of the proved text uses it, where a goal of its proof says that the option has a value.
        unsafe { self.unwrap_unchecked() }
    }
}

impl<T, E> ByProof<T> for Result<T, E> {
    #[inline(always)]
    #[track_caller]
    fn by_proof(self) -> T {
        debug_assert!(self.is_ok());
        // SAFETY: only the trusted copy of the proved text uses it, where a goal of its proof says that the result is no error.
        unsafe { self.unwrap_unchecked() }
    }
}

/// What a proof shows never to be reached.
#[inline(always)]
#[track_caller]
pub(crate) fn never() -> ! {
    if cfg!(debug_assertions) {
        unreachable!();
    }
    // SAFETY: only the trusted copy of the proved text calls it, where a goal of its proof says that the call is not reached.
    unsafe { core::hint::unreachable_unchecked() }
}
