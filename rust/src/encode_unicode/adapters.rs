//! Mergers and splitters over every iterator whose items lend what they take.
//!
//! The proved ones take the items themselves. So each is built over [`Owned`], which copies the items out of what lends them.
use crate::proved::encode_unicode::iterator as proved;
use crate::proved::encode_unicode::{Utf16Char, Utf8Char};
use crate::proved::utf_base::errors::{Utf16PairError, Utf8Error};
use core::borrow::Borrow;
use core::fmt::{self, Debug};
use core::iter::{Chain, FusedIterator};
use core::marker::PhantomData;
use core::option;

/// The items of an iterator, taken out of what lends them.
#[derive(Clone)]
pub(crate) struct Owned<I, T> {
    iter: I,
    item: PhantomData<fn() -> T>,
}

impl<I, T> Owned<I, T> {
    fn new(iter: I) -> Self {
        Owned { iter, item: PhantomData }
    }
}

impl<T: Copy, B: Borrow<T>, I: Iterator<Item = B>> Iterator for Owned<I, T> {
    type Item = T;

    #[inline(always)]
    fn next(&mut self) -> Option<T> {
        self.iter.next().map(|item| *item.borrow())
    }

    #[inline(always)]
    fn size_hint(&self) -> (usize, Option<usize>) {
        self.iter.size_hint()
    }
}

impl<I: Debug, T> Debug for Owned<I, T> {
    fn fmt(&self, f: &mut fmt::Formatter<'_>) -> fmt::Result {
        self.iter.fmt(f)
    }
}

/// The units of an iterator, and the item that lent the last of them: a merger that holds a unit holds that one.
#[derive(Clone)]
pub(crate) struct Lending<B, I> {
    iter: I,
    last: Option<B>,
}

impl<B: Borrow<u16>, I: Iterator<Item = B>> Iterator for Lending<B, I> {
    type Item = u16;

    #[inline(always)]
    fn next(&mut self) -> Option<u16> {
        let item = self.iter.next()?;
        let unit = *item.borrow();
        self.last = Some(item);
        Some(unit)
    }

    #[inline(always)]
    fn size_hint(&self) -> (usize, Option<usize>) {
        self.iter.size_hint()
    }
}

impl<B, I: Debug> Debug for Lending<B, I> {
    fn fmt(&self, f: &mut fmt::Formatter<'_>) -> fmt::Result {
        self.iter.fmt(f)
    }
}

/// What all four adapters have: they are made of every `IntoIterator`, are iterators, and are shown and cloned as the proved ones are.
macro_rules! adapter {
    ($name:ident, $from:ty => $to:ty, $source:ty, $make:expr) => {
        impl<B: Borrow<$from>, I: Iterator<Item = B>, T: IntoIterator<IntoIter = I, Item = B>> From<T> for $name<B, I> {
            #[inline]
            fn from(source: T) -> Self {
                $name { inner: proved::$name::from($make(source.into_iter())) }
            }
        }

        impl<B: Borrow<$from>, I: Iterator<Item = B>> $name<B, I> {
            /// The source, as far as it was read. An item that was read and of which nothing was given yet is lost.
            #[inline]
            #[must_use]
            pub fn into_inner(self) -> I {
                self.inner.into_inner().iter
            }
        }

        impl<B: Borrow<$from>, I: Iterator<Item = B>> Iterator for $name<B, I> {
            type Item = $to;

            #[inline(always)]
            fn next(&mut self) -> Option<$to> {
                self.inner.next()
            }

            #[inline]
            fn size_hint(&self) -> (usize, Option<usize>) {
                self.inner.size_hint()
            }
        }

        impl<B: Borrow<$from>, I: Iterator<Item = B> + Debug> Debug for $name<B, I> {
            fn fmt(&self, f: &mut fmt::Formatter<'_>) -> fmt::Result {
                self.inner.fmt(f)
            }
        }

        impl<B: Borrow<$from>, I: Iterator<Item = B> + Default> Default for $name<B, I> {
            #[inline]
            fn default() -> Self {
                Self::from(I::default())
            }
        }

        impl<B: Borrow<$from> + Clone, I: Iterator<Item = B> + Clone> Clone for $name<B, I> {
            #[inline]
            fn clone(&self) -> Self {
                $name { inner: self.inner.clone() }
            }
        }
    };
}

/// Decodes the bytes of an iterator: each character, or what is wrong with one byte.
///
/// ```
/// use noddychest::encode_unicode::IterExt;
/// let chars: Vec<_> = b"\xE2\x82A".iter().to_utf8chars().map(|it| it.ok().map(|c| c.to_char())).collect();
/// assert_eq!(chars, [None, None, Some('A')]);
/// ```
#[must_use = "iterators do nothing unless consumed"]
pub struct Utf8CharMerger<B: Borrow<u8>, I: Iterator<Item = B>> {
    inner: proved::Utf8CharMerger<Owned<I, u8>>,
}
adapter!(Utf8CharMerger, u8 => Result<Utf8Char, Utf8Error>, Owned<I, u8>, Owned::new);

/// Decodes the units of an iterator: each character, or what is wrong with one unit.
///
/// ```
/// use noddychest::encode_unicode::IterExt;
/// let chars: Vec<_> = [0xD83D, 0xDE00, 0xDE00u16].iter().to_utf16chars().map(|it| it.ok().map(|c| c.to_char())).collect();
/// assert_eq!(chars, [Some('😀'), None]);
/// ```
#[must_use = "iterators do nothing unless consumed"]
pub struct Utf16CharMerger<B: Borrow<u16>, I: Iterator<Item = B>> {
    inner: proved::Utf16CharMerger<Lending<B, I>>,
}
adapter!(Utf16CharMerger, u16 => Result<Utf16Char, Utf16PairError>, Lending<B, I>, |iter| Lending { iter, last: None });

// A merger does not ask its source again once that has ended; a splitter does.
impl<B: Borrow<u8>, I: Iterator<Item = B>> FusedIterator for Utf8CharMerger<B, I> {}
impl<B: Borrow<u16>, I: Iterator<Item = B>> FusedIterator for Utf16CharMerger<B, I> {}
impl<B: Borrow<Utf8Char>, I: FusedIterator<Item = B>> FusedIterator for Utf8CharSplitter<B, I> {}
impl<B: Borrow<Utf16Char>, I: FusedIterator<Item = B>> FusedIterator for Utf16CharSplitter<B, I> {}

impl<B: Borrow<u16>, I: Iterator<Item = B>> Utf16CharMerger<B, I> {
    /// What has not been decoded: the item that lent the buffered unit, and then what the source still gives.
    ///
    /// ```
    /// use noddychest::encode_unicode::IterExt;
    /// let mut merger = [0xD83D, 0x41, 0x42u16].iter().to_utf16chars();
    /// assert!(merger.next().unwrap().is_err());
    /// assert_eq!(merger.into_remaining_units().copied().collect::<Vec<u16>>(), [0x41, 0x42]);
    /// ```
    pub fn into_remaining_units(self) -> Chain<option::IntoIter<B>, I> {
        let holds = self.inner.held.len() > 0;
        let Lending { iter, last } = self.inner.into_inner();
        last.filter(|_| holds).into_iter().chain(iter)
    }
}

/// The bytes of the characters of an iterator.
///
/// ```
/// use noddychest::encode_unicode::{CharExt, IterExt};
/// let bytes: Vec<u8> = ['é'.to_utf8(), 'a'.to_utf8()].iter().to_bytes().collect();
/// assert_eq!(bytes, b"\xC3\xA9a");
/// ```
#[must_use = "iterators do nothing unless consumed"]
pub struct Utf8CharSplitter<B: Borrow<Utf8Char>, I: Iterator<Item = B>> {
    inner: proved::Utf8CharSplitter<Owned<I, Utf8Char>>,
}
adapter!(Utf8CharSplitter, Utf8Char => u8, Owned<I, Utf8Char>, Owned::new);

/// Fills the buffer as far as there are bytes, as upstream's does.
///
/// ```
/// use noddychest::encode_unicode::{CharExt, IterExt};
/// use std::io::Read;
/// let mut text = String::new();
/// ['é'.to_utf8()].iter().to_bytes().read_to_string(&mut text)?;
/// assert_eq!(text, "é");
/// # Ok::<(), std::io::Error>(())
/// ```
#[cfg(feature = "std")]
impl<B: Borrow<Utf8Char>, I: Iterator<Item = B>> std::io::Read for Utf8CharSplitter<B, I> {
    fn read(&mut self, buf: &mut [u8]) -> std::io::Result<usize> {
        self.inner.read(buf)
    }
}

/// The units of the characters of an iterator.
///
/// ```
/// use noddychest::encode_unicode::{CharExt, IterExt};
/// let units: Vec<u16> = ['😀'.to_utf16()].iter().to_units().collect();
/// assert_eq!(units, [0xD83D, 0xDE00]);
/// ```
#[must_use = "iterators do nothing unless consumed"]
pub struct Utf16CharSplitter<B: Borrow<Utf16Char>, I: Iterator<Item = B>> {
    inner: proved::Utf16CharSplitter<Owned<I, Utf16Char>>,
}
adapter!(Utf16CharSplitter, Utf16Char => u16, Owned<I, Utf16Char>, Owned::new);
