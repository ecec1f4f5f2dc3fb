//! Characters as what they hold: text, bytes and units.
use crate::proved::encode_unicode::{Utf16Char, Utf8Char};
use core::borrow::Borrow;
use core::ops::Deref;

macro_rules! views {
    ($($of:ty => $to:ty, $by:ident);*) => { $(
        impl AsRef<$to> for $of {
            #[inline]
            fn as_ref(&self) -> &$to {
                self.$by()
            }
        }

        /// For functions that take anything that lends such text, as in `encode_unicode`. Do not look up characters by it: they
        /// hash and compare as their `char`, so a `HashMap` finds nothing by a `&str` or a slice, and a `BTreeMap` may find
        /// nothing by a `&[u16]`.
        impl Borrow<$to> for $of {
            #[inline]
            fn borrow(&self) -> &$to {
                self.$by()
            }
        }
    )* };
}
views!(Utf8Char => str, as_str; Utf8Char => [u8], as_bytes; Utf16Char => [u16], as_units);

impl Deref for Utf8Char {
    type Target = str;

    #[inline]
    fn deref(&self) -> &str {
        self.as_str()
    }
}

impl Deref for Utf16Char {
    type Target = [u16];

    #[inline]
    fn deref(&self) -> &[u16] {
        self.as_units()
    }
}
