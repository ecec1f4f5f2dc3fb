//! A crate in the place of `bstr`: what the tests of its module `utf8` call, over this project's library. Its `tests` are put beside.
#![allow(dead_code)]
mod ours;
mod tests;

pub mod ext_slice {
    use crate::ours::{first_subpart, last_subpart};

    /// The characters of some bytes with their offsets, from both ends, U+FFFD for what is invalid.
    pub struct CharIndices<'a> {
        at: usize,
        left: &'a [u8],
    }

    impl Iterator for CharIndices<'_> {
        type Item = (usize, usize, char);

        fn next(&mut self) -> Option<Self::Item> {
            let (found, len) = first_subpart(self.left);
            let from = self.at;
            self.left = &self.left[len..];
            self.at += len;
            (len > 0).then(|| (from, from + len, found.unwrap_or('\u{fffd}')))
        }
    }

    impl DoubleEndedIterator for CharIndices<'_> {
        fn next_back(&mut self) -> Option<Self::Item> {
            let (found, len) = last_subpart(self.left);
            let to = self.at + self.left.len();
            self.left = &self.left[..self.left.len() - len];
            (len > 0).then(|| (to - len, to, found.unwrap_or('\u{fffd}')))
        }
    }

    pub trait ByteSlice {
        fn as_bstr(&self) -> &[u8];
        fn char_indices(&self) -> CharIndices<'_>;
        fn chars(&self) -> std::vec::IntoIter<char>;
    }

    impl ByteSlice for [u8] {
        fn as_bstr(&self) -> &[u8] {
            self
        }

        fn char_indices(&self) -> CharIndices<'_> {
            CharIndices { at: 0, left: self }
        }

        fn chars(&self) -> std::vec::IntoIter<char> {
            self.char_indices().map(|it| it.2).collect::<Vec<_>>().into_iter()
        }
    }

    #[allow(non_snake_case)]
    pub fn B<'a, B: ?Sized + AsRef<[u8]>>(bytes: &'a B) -> &'a [u8] {
        bytes.as_ref()
    }
}

pub mod utf8 {
    use crate::ours::{fault, first_subpart, last_subpart};

    #[derive(Debug, PartialEq, Eq)]
    pub struct Utf8Error {
        pub valid_up_to: usize,
        pub error_len: Option<usize>,
    }

    pub fn validate(bytes: &[u8]) -> Result<(), Utf8Error> {
        match fault(bytes) {
            None => Ok(()),
            Some((valid_up_to, error_len)) => Err(Utf8Error { valid_up_to, error_len }),
        }
    }

    pub fn decode(bytes: &[u8]) -> (Option<char>, usize) {
        first_subpart(bytes)
    }

    pub fn decode_last(bytes: &[u8]) -> (Option<char>, usize) {
        last_subpart(bytes)
    }

    pub fn decode_lossy(bytes: &[u8]) -> (char, usize) {
        let (found, len) = first_subpart(bytes);
        (found.unwrap_or('\u{fffd}'), len)
    }

    pub fn decode_last_lossy(bytes: &[u8]) -> (char, usize) {
        let (found, len) = last_subpart(bytes);
        (found.unwrap_or('\u{fffd}'), len)
    }

    #[derive(Debug, PartialEq, Eq)]
    pub struct Utf8Chunk<'a> {
        pub valid: &'a str,
        pub invalid: &'a [u8],
        pub incomplete: bool,
    }

    pub struct Utf8Chunks<'a> {
        pub bytes: &'a [u8],
    }

    impl<'a> Iterator for Utf8Chunks<'a> {
        type Item = Utf8Chunk<'a>;

        fn next(&mut self) -> Option<Utf8Chunk<'a>> {
            let bytes = self.bytes;
            let (at, len) = fault(bytes).unwrap_or((bytes.len(), Some(0)));
            let end = at + len.unwrap_or(bytes.len() - at);
            self.bytes = &bytes[end..];
            let valid = unsafe { std::str::from_utf8_unchecked(&bytes[..at]) };
            (!bytes.is_empty()).then(|| Utf8Chunk { valid, invalid: &bytes[at..end], incomplete: len.is_none() })
        }
    }

    include!("peer_tests.rs");
}
