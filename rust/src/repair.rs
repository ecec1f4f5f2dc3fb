//! What invalid bytes become by a table: the characters of an older encoding, or nothing.

use crate::proved::cuts;

/// The bytes from 80 on: the only ones that can be invalid in UTF-8.
const BYTES: usize = 128;
/// The highest character that a table may have: it is no longer in UTF-8 than U+FFFD.
const HIGHEST: u32 = 0xFFFF;
/// The number that stands for nothing.
const NOTHING: u32 = u32::MAX;

/// What a [`Recoder`](crate::Recoder) writes for each invalid byte, in place of U+FFFD: a character of a table, or nothing.
///
/// Text that is UTF-8 for the most part often has bytes of Windows-1252 in it. With that table they become the characters that were meant.
/// A table has a character up to U+FFFF, or nothing, for each byte from 80 on. In UTF-16 a lone surrogate, and an odd last byte, become U+FFFD
/// with any table, and nothing with [`DROP`](Repair::DROP).
///
/// ```
/// use noddychest::{decode_repaired, Encoding, Repair};
/// let bytes = b"na\xC3\xAFve \x93caf\xE9\x94";
/// assert_eq!(decode_repaired(Encoding::Utf8, bytes, Repair::WINDOWS_1252), "naïve “café”");
/// assert_eq!(decode_repaired(Encoding::Utf8, bytes, Repair::DROP), "naïve caf");
/// ```
#[doc(alias = "windows-1252")]
#[doc(alias = "latin1")]
#[derive(Clone, Copy)]
pub struct Repair {
    table: Table,
}

// (kept by value: a table is made without an allocator, and a recoder that has one can be cloned and sent)
#[derive(Clone, Copy)]
#[allow(clippy::large_enum_variant)]
enum Table {
    Drop,
    Windows1252,
    Latin1,
    Own([u32; BYTES]),
}

impl Repair {
    /// Leaves out each invalid byte, and in UTF-16 each lone surrogate and an odd last byte.
    ///
    /// ```
    /// use noddychest::{decode_repaired, Encoding, Repair};
    /// assert_eq!(decode_repaired(Encoding::Utf8, b"a\xE2\x82b", Repair::DROP), "ab");
    /// assert_eq!(decode_repaired(Encoding::Utf16Le, b"a\0\0\xD8b", Repair::DROP), "a");
    /// ```
    #[doc(alias = "ignore")]
    pub const DROP: Repair = Repair { table: Table::Drop };

    /// Writes for each invalid byte the character that it is in Windows-1252, by the [index](https://encoding.spec.whatwg.org/#windows-1252)
    /// of the Encoding Standard: there 81, 8D, 8F, 90 and 9D are the control characters of the same number.
    ///
    /// ```
    /// use noddychest::{decode_repaired, Encoding, Repair};
    /// assert_eq!(decode_repaired(Encoding::Utf8, b"10 \x80, \xE9\x81", Repair::WINDOWS_1252), "10 €, é\u{81}");
    /// ```
    pub const WINDOWS_1252: Repair = Repair { table: Table::Windows1252 };

    /// Writes for each invalid byte the character of the same number, U+0080 to U+00FF (ISO-8859-1).
    ///
    /// ```
    /// use noddychest::{decode_repaired, Encoding, Repair};
    /// assert_eq!(decode_repaired(Encoding::Utf8, b"\x80 \xE9", Repair::LATIN_1), "\u{80} é");
    /// ```
    #[doc(alias = "ISO-8859-1")]
    pub const LATIN_1: Repair = Repair { table: Table::Latin1 };

    /// A table: the character of the byte 80 is first, and `None` leaves a byte out. It may be a constant.
    ///
    /// # Errors
    ///
    /// If a character is above U+FFFF: the first one.
    ///
    /// ```
    /// use noddychest::{decode_repaired, Encoding, Repair};
    /// const STARS: Repair = match Repair::from_table(&[Some('*'); 128]) {
    ///     Ok(repair) => repair,
    ///     Err(_) => panic!("a star is below U+FFFF"),
    /// };
    /// assert_eq!(decode_repaired(Encoding::Utf8, b"a\xE2\x82b", STARS), "a**b");
    /// assert!(Repair::from_table(&[Some('😀'); 128]).is_err());
    /// ```
    pub const fn from_table(chars: &[Option<char>; BYTES]) -> Result<Repair, NonBmpChar> {
        let (mut numbers, mut at) = ([NOTHING; BYTES], 0);
        while at < BYTES {
            if let Some(char) = chars[at] {
                if char as u32 > HIGHEST {
                    return Err(NonBmpChar { byte: 0x80 + at as u8, char });
                }
                numbers[at] = char as u32;
            }
            at += 1;
        }
        Ok(Repair { table: Table::Own(numbers) })
    }

    /// A table of what a function returns for each byte from 80 to FF, for which it is called once each, in order.
    ///
    /// # Errors
    ///
    /// If a character is above U+FFFF: the first one.
    ///
    /// ```
    /// use noddychest::{decode_repaired, Encoding, Repair};
    /// // Windows-1251, as far as its Russian letters go.
    /// let russian = Repair::from_fn(|byte| char::from_u32(0x0410 + u32::from(byte.checked_sub(0xC0)?)))?;
    /// assert_eq!(decode_repaired(Encoding::Utf8, b"\xC4\xE0, \xD0\xB4\xD0\xB0!", russian), "Да, да!");
    /// # Ok::<(), noddychest::NonBmpChar>(())
    /// ```
    pub fn from_fn(mut char_for: impl FnMut(u8) -> Option<char>) -> Result<Repair, NonBmpChar> {
        let mut chars = [None; BYTES];
        for (byte, char) in (0x80..=u8::MAX).zip(&mut chars) {
            *char = char_for(byte);
        }
        Repair::from_table(&chars)
    }

    /// The character for a byte that is invalid in UTF-8, or `None` if it is left out. A byte below 80 is never invalid: it is its own
    /// character.
    ///
    /// ```
    /// use noddychest::Repair;
    /// assert_eq!(Repair::WINDOWS_1252.char_for(0x80), Some('€'));
    /// assert_eq!(Repair::DROP.char_for(0x80), None);
    /// assert_eq!(Repair::DROP.char_for(b'a'), Some('a'));
    /// ```
    #[must_use]
    pub fn char_for(&self, byte: u8) -> Option<char> {
        match byte.checked_sub(0x80) {
            Some(at) => self.proved().chars.get(usize::from(at)).copied().and_then(char::from_u32),
            None => Some(char::from(byte)),
        }
    }

    pub(crate) fn proved(&self) -> cuts::Repair<'_> {
        match &self.table {
            Table::Drop => cuts::Repair::nothing(),
            Table::Windows1252 => cuts::Repair::windows_1252(),
            Table::Latin1 => cuts::Repair::latin_1(),
            Table::Own(chars) => cuts::Repair::of(chars),
        }
    }
}

/// Two are equal if they write the same for every input.
impl PartialEq for Repair {
    fn eq(&self, other: &Repair) -> bool {
        self.proved().chars == other.proved().chars
    }
}

impl Eq for Repair {}

impl core::hash::Hash for Repair {
    fn hash<H: core::hash::Hasher>(&self, state: &mut H) {
        self.proved().chars.hash(state);
    }
}

/// The name of the table, or the characters of the caller's table.
impl core::fmt::Debug for Repair {
    fn fmt(&self, f: &mut core::fmt::Formatter<'_>) -> core::fmt::Result {
        match &self.table {
            Table::Drop => f.write_str("Repair::DROP"),
            Table::Windows1252 => f.write_str("Repair::WINDOWS_1252"),
            Table::Latin1 => f.write_str("Repair::LATIN_1"),
            Table::Own(_) => {
                let chars = (0x80..=u8::MAX).filter_map(|byte| Some((byte, self.char_for(byte)?)));
                f.debug_map().entries(chars).finish()
            }
        }
    }
}

/// That a table of [`Repair`] has a character above U+FFFF, outside of the Basic Multilingual Plane.
///
/// ```
/// let error = noddychest::Repair::from_fn(|_| Some('😀')).unwrap_err();
/// assert_eq!((error.byte(), error.char()), (0x80, '😀'));
/// assert_eq!(error.to_string(), "the character for the byte 80 is U+1F600: only characters up to U+FFFF are possible");
/// ```
#[derive(Clone, Copy, Debug, PartialEq, Eq, Hash)]
pub struct NonBmpChar {
    byte: u8,
    char: char,
}

impl NonBmpChar {
    /// The byte, 80 to FF, whose character it is.
    ///
    /// ```
    /// assert_eq!(noddychest::Repair::from_fn(|byte| (byte == 0xE9).then_some('😀')).unwrap_err().byte(), 0xE9);
    /// ```
    #[must_use]
    pub fn byte(self) -> u8 {
        self.byte
    }

    /// The character.
    ///
    /// ```
    /// assert_eq!(noddychest::Repair::from_fn(|_| Some('😀')).unwrap_err().char(), '😀');
    /// ```
    #[must_use]
    pub fn char(self) -> char {
        self.char
    }
}

impl core::fmt::Display for NonBmpChar {
    fn fmt(&self, f: &mut core::fmt::Formatter<'_>) -> core::fmt::Result {
        let (byte, number) = (self.byte, u32::from(self.char));
        write!(f, "the character for the byte {byte:X} is U+{number:04X}: only characters up to U+FFFF are possible")
    }
}

impl core::error::Error for NonBmpChar {}
