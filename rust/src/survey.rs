//! What an input most likely is, by counts of what it has.

use core::fmt;
use core::ops::Deref;

use crate::proved::cuts;
pub use crate::proved::cuts::{Guess, Guesses, Survey, UnitCounts, Utf8Counts};

impl Guess {
    /// All guesses. More may come, so it is a slice.
    ///
    /// ```
    /// use noddychest::Guess;
    /// let all: &[Guess] = Guess::ALL;
    /// assert!(all.contains(&Guess::Utf8Twice));
    /// ```
    pub const ALL: &'static [Guess] = &[
        Guess::Ascii,
        Guess::Utf8,
        Guess::Utf8Marked,
        Guess::Utf8Cut,
        Guess::Utf8Mixed,
        Guess::Utf8Twice,
        Guess::Utf8Surrogates,
        Guess::Utf16Le,
        Guess::Utf16Be,
        Guess::Utf16LeMarked,
        Guess::Utf16BeMarked,
        Guess::Utf32,
        Guess::Windows1252,
        Guess::Other8Bit,
        Guess::Binary,
    ];
}

impl fmt::Display for Guess {
    fn fmt(&self, f: &mut fmt::Formatter<'_>) -> fmt::Result {
        f.pad(self.text())
    }
}

impl Deref for Guesses {
    type Target = [Guess];

    fn deref(&self) -> &[Guess] {
        self.as_slice()
    }
}

impl Survey {
    /// What the input most likely is. It is a guess, by thresholds that were set on texts in 74 languages. Cost: constant.
    ///
    /// ```
    /// use noddychest::{survey, Guess};
    /// assert_eq!(survey(b"caf\xC3\x83\xC2\xA9").guess(), Guess::Utf8Twice);
    /// ```
    #[must_use]
    pub fn guess(&self) -> Guess {
        cuts::guess_of(self)
    }

    /// What the input may be: one to three guesses, the likeliest first. The first is that of [`Survey::guess`], and each of the others says
    /// what the input is if those before it are wrong. Cost: constant.
    ///
    /// ```
    /// use noddychest::{survey, Guess};
    /// assert_eq!(*survey(b"caf\xE9").guesses(), [Guess::Windows1252, Guess::Other8Bit]);
    /// assert_eq!(*survey("café".as_bytes()).guesses(), [Guess::Utf8]);
    /// ```
    #[must_use]
    pub fn guesses(&self) -> Guesses {
        cuts::guesses_of(self)
    }
}

/// Counts what bytes have, by which [`Survey::guess`] says what they most likely are. For input in parts there is a [`Surveyor`].
///
/// Cost: O(n). It allocates nothing.
///
/// ```
/// let survey = noddychest::survey(b"caf\xC3\xA9 \xFF");
/// assert_eq!((survey.len, survey.utf8.chars, survey.utf8.faults), (7, 1, 1));
/// ```
#[must_use]
pub fn survey(bytes: &[u8]) -> Survey {
    cuts::survey_of(bytes)
}

/// What bytes most likely are: in UTF-8, in UTF-16, in an 8-bit encoding, or not text. It is `survey(bytes).guess()`.
///
/// Cost: O(n). It allocates nothing.
///
/// ```
/// use noddychest::{guess, Guess};
/// assert_eq!(guess(b"caf\xE9"), Guess::Windows1252);
/// assert_eq!(guess(b"h\0i\0"), Guess::Utf16Le);
/// assert_eq!(guess(b"caf\xC3").to_string(), "Windows-1252, or another encoding of Latin letters");
/// ```
#[doc(alias = "encoding")]
#[doc(alias = "detect")]
#[must_use]
pub fn guess(bytes: &[u8]) -> Guess {
    survey(bytes).guess()
}

/// Surveys an input that comes in parts, which may begin and end anywhere: the survey is that of the joined parts. It allocates nothing, and may
/// be cloned.
///
/// With the feature `std` it is a [`Write`](std::io::Write), to which `std::io::copy` copies what a reader gives.
///
/// ```
/// use noddychest::{Guess, Surveyor};
///
/// let mut surveyor = Surveyor::new();
/// surveyor.feed(b"caf\xC3");
/// assert_eq!(surveyor.survey().guess(), Guess::Windows1252);
/// surveyor.feed(b"\xA9");
/// assert_eq!(surveyor.survey().guess(), Guess::Utf8);
/// ```
#[derive(Debug)]
pub struct Surveyor {
    inner: cuts::Surveyor,
}

impl Surveyor {
    /// A surveyor of an input of which nothing was fed.
    ///
    /// ```
    /// assert_eq!(noddychest::Surveyor::new().survey().len, 0);
    /// ```
    #[must_use]
    pub fn new() -> Surveyor {
        Surveyor { inner: cuts::Surveyor::new() }
    }

    /// Takes the next part of the input. Cost: O(n).
    ///
    /// ```
    /// let mut surveyor = noddychest::Surveyor::new();
    /// surveyor.feed(b"a\0");
    /// assert_eq!(surveyor.survey().nul, 1);
    /// ```
    pub fn feed(&mut self, part: &[u8]) {
        self.inner.feed(part);
    }

    /// The survey of what was fed so far. More may be fed afterwards. Cost: constant.
    ///
    /// ```
    /// let mut surveyor = noddychest::Surveyor::new();
    /// surveyor.feed("né".as_bytes());
    /// assert_eq!(surveyor.survey(), noddychest::survey("né".as_bytes()));
    /// ```
    #[must_use]
    pub fn survey(&self) -> Survey {
        self.inner.survey()
    }
}

impl Clone for Surveyor {
    fn clone(&self) -> Surveyor {
        Surveyor { inner: cuts::Surveyor::resumed(&self.inner.state()) }
    }
}

impl Default for Surveyor {
    fn default() -> Surveyor {
        Surveyor::new()
    }
}

/// What is written is fed, all of it, and no write fails.
#[cfg(feature = "std")]
impl std::io::Write for Surveyor {
    fn write(&mut self, part: &[u8]) -> std::io::Result<usize> {
        self.feed(part);
        Ok(part.len())
    }

    fn flush(&mut self) -> std::io::Result<()> {
        Ok(())
    }
}
