//! std's collections, made of characters and extended by them.
//!
//! The proved calls return an error if an allocation fails; std's own abort the process, and so do these.
use crate::proved::encode_unicode::{Utf16Char, Utf16CharIterExt, Utf8Char, Utf8CharIterExt};
use crate::support::memory;
use alloc::alloc::{handle_alloc_error, Layout};
use alloc::string::String;
use alloc::vec::Vec;

macro_rules! collected {
    ($($one:ty => $all:ty, $of:ty, $by:path);*) => { $(
        impl Extend<$one> for $all {
            #[inline]
            fn extend<I: IntoIterator<Item = $one>>(&mut self, source: I) {
                let source = source.into_iter();
                self.reserve(source.size_hint().0);
                if $by(source, <$of>::of(self)).is_err() {
                    handle_alloc_error(Layout::new::<$one>());
                }
            }
        }

        impl<'a> Extend<&'a $one> for $all {
            #[inline]
            fn extend<I: IntoIterator<Item = &'a $one>>(&mut self, source: I) {
                self.extend(source.into_iter().copied());
            }
        }

        impl FromIterator<$one> for $all {
            #[inline]
            fn from_iter<I: IntoIterator<Item = $one>>(source: I) -> Self {
                let mut all = Self::new();
                all.extend(source);
                all
            }
        }

        impl<'a> FromIterator<&'a $one> for $all {
            #[inline]
            fn from_iter<I: IntoIterator<Item = &'a $one>>(source: I) -> Self {
                source.into_iter().copied().collect()
            }
        }
    )* };
}
collected!(
    Utf8Char => Vec<u8>, memory::Vec<u8>, Utf8CharIterExt::extend_bytes;
    Utf8Char => String, memory::String, Utf8CharIterExt::extend_string;
    Utf16Char => Vec<u16>, memory::Vec<u16>, Utf16CharIterExt::extend_units;
    Utf16Char => String, memory::String, Utf16CharIterExt::extend_string
);
