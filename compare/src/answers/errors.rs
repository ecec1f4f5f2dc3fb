//! The errors: their numbers and their texts.

use super::side::error::{
    CodepointError, EmptyStrError, FromStrError, NonAsciiError, NonBmpError, Utf16ArrayError,
    Utf16FirstUnitError, Utf16PairError, Utf16SliceError, Utf16TupleError, Utf8Error,
    Utf8ErrorKind,
};
use super::side::CharExt;
use crate::numbers::{ErrorNumber, FIRST_ERROR};
use std::fmt::Display;

impl ErrorNumber for Utf8Error {
    fn number(&self) -> u64 {
        match self.kind() {
            Utf8ErrorKind::TooFewBytes => FIRST_ERROR,
            Utf8ErrorKind::NonUtf8Byte => FIRST_ERROR + 1,
            Utf8ErrorKind::UnexpectedContinuationByte => FIRST_ERROR + 2,
            Utf8ErrorKind::InterruptedSequence => FIRST_ERROR + 3,
            Utf8ErrorKind::OverlongEncoding => FIRST_ERROR + 4,
            Utf8ErrorKind::Utf16ReservedCodepoint => FIRST_ERROR + 5,
            Utf8ErrorKind::TooHighCodepoint => FIRST_ERROR + 6,
        }
    }
}

impl ErrorNumber for CodepointError {
    fn number(&self) -> u64 {
        match self {
            CodepointError::Utf16Reserved => FIRST_ERROR,
            CodepointError::TooHigh => FIRST_ERROR + 1,
        }
    }
}

impl ErrorNumber for Utf16ArrayError {
    fn number(&self) -> u64 {
        match self {
            Utf16ArrayError::FirstIsTrailingSurrogate => FIRST_ERROR,
            Utf16ArrayError::SecondIsNotTrailingSurrogate => FIRST_ERROR + 1,
        }
    }
}

impl ErrorNumber for Utf16TupleError {
    fn number(&self) -> u64 {
        match self {
            Utf16TupleError::FirstIsTrailingSurrogate => FIRST_ERROR,
            Utf16TupleError::SuperfluousSecond => FIRST_ERROR + 1,
            Utf16TupleError::MissingSecond => FIRST_ERROR + 2,
            Utf16TupleError::SecondIsNotTrailingSurrogate => FIRST_ERROR + 3,
        }
    }
}

impl ErrorNumber for Utf16SliceError {
    fn number(&self) -> u64 {
        match self {
            Utf16SliceError::EmptySlice => FIRST_ERROR,
            Utf16SliceError::FirstIsTrailingSurrogate => FIRST_ERROR + 1,
            Utf16SliceError::MissingSecond => FIRST_ERROR + 2,
            Utf16SliceError::SecondIsNotTrailingSurrogate => FIRST_ERROR + 3,
        }
    }
}

impl ErrorNumber for Utf16PairError {
    fn number(&self) -> u64 {
        match self {
            Utf16PairError::UnexpectedTrailingSurrogate => FIRST_ERROR,
            Utf16PairError::UnmatchedLeadingSurrogate => FIRST_ERROR + 1,
            Utf16PairError::Incomplete => FIRST_ERROR + 2,
        }
    }
}

impl ErrorNumber for FromStrError {
    fn number(&self) -> u64 {
        match self {
            FromStrError::MultipleCodepoints => FIRST_ERROR,
            FromStrError::Empty => FIRST_ERROR + 1,
        }
    }
}

impl ErrorNumber for EmptyStrError {
    fn number(&self) -> u64 {
        FIRST_ERROR
    }
}

impl ErrorNumber for Utf16FirstUnitError {
    fn number(&self) -> u64 {
        FIRST_ERROR
    }
}

impl ErrorNumber for NonAsciiError {
    fn number(&self) -> u64 {
        FIRST_ERROR
    }
}

impl ErrorNumber for NonBmpError {
    fn number(&self) -> u64 {
        FIRST_ERROR
    }
}

/// The texts of the errors, by type and by position among the variants. `Utf8Error` cannot be made from its kind
/// outside the crate, so bytes with each kind are used instead.
pub fn error_texts() -> Vec<Vec<String>> {
    vec![
        UTF8_FAULTS.map(utf8_text).to_vec(),
        texts(&[CodepointError::Utf16Reserved, CodepointError::TooHigh]),
        texts(&[
            Utf16ArrayError::FirstIsTrailingSurrogate,
            Utf16ArrayError::SecondIsNotTrailingSurrogate,
        ]),
        texts(&[
            Utf16TupleError::FirstIsTrailingSurrogate,
            Utf16TupleError::SuperfluousSecond,
            Utf16TupleError::MissingSecond,
            Utf16TupleError::SecondIsNotTrailingSurrogate,
        ]),
        texts(&[
            Utf16SliceError::EmptySlice,
            Utf16SliceError::FirstIsTrailingSurrogate,
            Utf16SliceError::MissingSecond,
            Utf16SliceError::SecondIsNotTrailingSurrogate,
        ]),
        texts(&[
            Utf16PairError::UnexpectedTrailingSurrogate,
            Utf16PairError::UnmatchedLeadingSurrogate,
            Utf16PairError::Incomplete,
        ]),
        texts(&[FromStrError::MultipleCodepoints, FromStrError::Empty]),
        vec![
            EmptyStrError.to_string(),
            Utf16FirstUnitError.to_string(),
            NonAsciiError.to_string(),
            NonBmpError.to_string(),
        ],
    ]
}

// Bytes for each kind of error, in the order of the kinds.
const UTF8_FAULTS: [&[u8]; 7] = [
    &[],
    &[0xff],
    &[0x80],
    &[0xc2, 0x41],
    &[0xe0, 0x80, 0x80],
    &[0xed, 0xa0, 0x80],
    &[0xf4, 0x90, 0x80, 0x80],
];

fn utf8_text(bytes: &[u8]) -> String {
    char::from_utf8_slice_start(bytes).map_or_else(|error| error.to_string(), |_| String::new())
}

fn texts<E: Display>(errors: &[E]) -> Vec<String> {
    errors.iter().map(E::to_string).collect()
}
