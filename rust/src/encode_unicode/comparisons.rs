//! Comparisons across types, each by the proved method that compares these two.
use crate::proved::encode_unicode::{Utf16Char, Utf8Char};
use crate::proved::utf_base::errors::{Utf8Error, Utf8ErrorKind};
use core::cmp::Ordering;

macro_rules! compared {
    ($($one:ty, $other:ty, $eq:ident, $cmp:ident);*) => { $(
        impl PartialEq<$other> for $one {
            #[inline]
            fn eq(&self, other: &$other) -> bool {
                self.$eq(*other)
            }
        }

        impl PartialOrd<$other> for $one {
            #[inline]
            fn partial_cmp(&self, other: &$other) -> Option<Ordering> {
                Some(self.$cmp(*other))
            }
        }
    )* };
}
compared!(
    Utf8Char, char, eq_char, cmp_char;
    Utf8Char, Utf16Char, eq_utf16, cmp_utf16;
    Utf16Char, char, eq_char, cmp_char;
    Utf16Char, Utf8Char, eq_utf8, cmp_utf8
);

macro_rules! turned {
    ($($one:ty),*) => { $(
        impl PartialEq<$one> for char {
            #[inline]
            fn eq(&self, other: &$one) -> bool {
                other.eq_char(*self)
            }
        }

        impl PartialOrd<$one> for char {
            #[inline]
            fn partial_cmp(&self, other: &$one) -> Option<Ordering> {
                Some(other.cmp_char(*self).reverse())
            }
        }
    )* };
}
turned!(Utf8Char, Utf16Char);

macro_rules! equals {
    ($($one:ty, $other:ty, $by:ident);*) => { $(
        impl PartialEq<$other> for $one {
            #[inline]
            fn eq(&self, other: &$other) -> bool {
                self.$by(*other)
            }
        }
    )* };
}
equals!(Utf8Char, u8, eq_u8; Utf16Char, u8, eq_u8; Utf16Char, u16, eq_u16; Utf8Error, Utf8ErrorKind, is_kind);

impl PartialEq<Utf8Error> for Utf8ErrorKind {
    #[inline]
    fn eq(&self, error: &Utf8Error) -> bool {
        error.is_kind(*self)
    }
}
