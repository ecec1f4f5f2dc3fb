//! Methods of iterators, slices and text.
use super::adapters::{Utf16CharMerger, Utf16CharSplitter, Utf8CharMerger, Utf8CharSplitter};
use crate::proved::encode_unicode::iterator::{
    Utf16CharDecoder, Utf16CharIndices, Utf16Chars, Utf16Iterator, Utf8CharDecoder, Utf8CharIndices, Utf8Chars, Utf8Iterator,
};
use crate::proved::encode_unicode::{Utf16Char, Utf8Char};
use core::borrow::Borrow;
use core::iter::FusedIterator;
use core::ops::{Index, RangeFull};

/// Methods of iterators that convert between bytes, units and characters.
pub trait IterExt: Iterator + Sized {
    /// The bytes of the characters.
    ///
    /// ```
    /// use noddychest::encode_unicode::{CharExt, IterExt};
    /// assert!(Some('é'.to_utf8()).into_iter().to_bytes().eq([0xC3, 0xA9]));
    /// ```
    fn to_bytes(self) -> Utf8CharSplitter<Self::Item, Self>
    where
        Self::Item: Borrow<Utf8Char>;

    /// The units of the characters.
    ///
    /// ```
    /// use noddychest::encode_unicode::{CharExt, IterExt};
    /// assert!(Some('é'.to_utf16()).into_iter().to_units().eq([0xE9]));
    /// ```
    fn to_units(self) -> Utf16CharSplitter<Self::Item, Self>
    where
        Self::Item: Borrow<Utf16Char>;

    /// The characters of the bytes, and what is wrong with each byte that is no part of one.
    ///
    /// ```
    /// use noddychest::encode_unicode::IterExt;
    /// assert!("é".bytes().to_utf8chars().flatten().eq(['é']));
    /// ```
    fn to_utf8chars(self) -> Utf8CharMerger<Self::Item, Self>
    where
        Self::Item: Borrow<u8>;

    /// The characters of the units, and what is wrong with each unit that is no part of one.
    ///
    /// ```
    /// use noddychest::encode_unicode::IterExt;
    /// assert!("é".encode_utf16().to_utf16chars().flatten().eq(['é']));
    /// ```
    fn to_utf16chars(self) -> Utf16CharMerger<Self::Item, Self>
    where
        Self::Item: Borrow<u16>;
}

impl<I: Iterator> IterExt for I {
    #[inline]
    fn to_bytes(self) -> Utf8CharSplitter<Self::Item, Self>
    where
        Self::Item: Borrow<Utf8Char>,
    {
        Utf8CharSplitter::from(self)
    }

    #[inline]
    fn to_units(self) -> Utf16CharSplitter<Self::Item, Self>
    where
        Self::Item: Borrow<Utf16Char>,
    {
        Utf16CharSplitter::from(self)
    }

    #[inline]
    fn to_utf8chars(self) -> Utf8CharMerger<Self::Item, Self>
    where
        Self::Item: Borrow<u8>,
    {
        Utf8CharMerger::from(self)
    }

    #[inline]
    fn to_utf16chars(self) -> Utf16CharMerger<Self::Item, Self>
    where
        Self::Item: Borrow<u16>,
    {
        Utf16CharMerger::from(self)
    }
}

/// Methods of slices of bytes and units, and of what lends one by `[..]`.
pub trait SliceExt: Index<RangeFull> {
    /// The characters and the invalid bytes: (offset, character or error, length).
    ///
    /// ```
    /// use noddychest::encode_unicode::SliceExt;
    /// let offsets: Vec<usize> = b"\xC3\xA9\xFFa".utf8char_indices().map(|(at, _, _)| at).collect();
    /// assert_eq!(offsets, [0, 2, 3]);
    /// ```
    fn utf8char_indices(&self) -> Utf8CharDecoder<'_>
    where
        Self::Output: Borrow<[u8]>;

    /// The characters and the lone surrogates: (offset, character or error, length).
    ///
    /// ```
    /// use noddychest::encode_unicode::SliceExt;
    /// let lengths: Vec<usize> = [0xD83D, 0xDE00, 0x41u16].utf16char_indices().map(|(_, _, len)| len).collect();
    /// assert_eq!(lengths, [2, 1]);
    /// ```
    fn utf16char_indices(&self) -> Utf16CharDecoder<'_>
    where
        Self::Output: Borrow<[u16]>;
}

impl<S: ?Sized + Index<RangeFull>> SliceExt for S {
    #[inline]
    fn utf8char_indices(&self) -> Utf8CharDecoder<'_>
    where
        Self::Output: Borrow<[u8]>,
    {
        Utf8CharDecoder::from(self[..].borrow())
    }

    #[inline]
    fn utf16char_indices(&self) -> Utf16CharDecoder<'_>
    where
        Self::Output: Borrow<[u16]>,
    {
        Utf16CharDecoder::from(self[..].borrow())
    }
}

/// Methods of text.
pub trait StrExt: AsRef<str> {
    /// The characters, kept as UTF-8.
    ///
    /// ```
    /// use noddychest::encode_unicode::StrExt;
    /// assert!("né".utf8chars().eq("né".chars().collect::<Vec<char>>()));
    /// ```
    fn utf8chars(&self) -> Utf8Chars<'_>;

    /// The characters, kept as UTF-16.
    ///
    /// ```
    /// use noddychest::encode_unicode::StrExt;
    /// assert_eq!("a😀".utf16chars().map(|c| c.len()).sum::<usize>(), 3);
    /// ```
    fn utf16chars(&self) -> Utf16Chars<'_>;

    /// The characters, kept as UTF-8, with their offsets in bytes.
    ///
    /// ```
    /// use noddychest::encode_unicode::StrExt;
    /// assert!("é!".utf8char_indices().map(|(at, _)| at).eq([0, 2]));
    /// ```
    fn utf8char_indices(&self) -> Utf8CharIndices<'_>;

    /// The characters, kept as UTF-16, with their offsets in bytes.
    ///
    /// ```
    /// use noddychest::encode_unicode::StrExt;
    /// assert!("é!".utf16char_indices().map(|(at, _)| at).eq([0, 2]));
    /// ```
    fn utf16char_indices(&self) -> Utf16CharIndices<'_>;
}

impl StrExt for str {
    #[inline]
    fn utf8chars(&self) -> Utf8Chars<'_> {
        Utf8Chars::from(self)
    }

    #[inline]
    fn utf16chars(&self) -> Utf16Chars<'_> {
        Utf16Chars::from(self)
    }

    #[inline]
    fn utf8char_indices(&self) -> Utf8CharIndices<'_> {
        Utf8CharIndices::from(self)
    }

    #[inline]
    fn utf16char_indices(&self) -> Utf16CharIndices<'_> {
        Utf16CharIndices::from(self)
    }
}

// What goes over a slice, a text or a character ends where nothing is left of it.
macro_rules! fused {
    ($($kind:ty),*) => { $(
        impl FusedIterator for $kind {}
    )* };
}
fused!(Utf8CharDecoder<'_>, Utf16CharDecoder<'_>, Utf8CharIndices<'_>, Utf8Chars<'_>, Utf16CharIndices<'_>, Utf16Chars<'_>);
fused!(Utf8Iterator, Utf16Iterator);
