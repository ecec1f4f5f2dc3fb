//! A crate in the place of `simdutf8`: what its tests call, over this project's library.
mod ours;

pub mod basic {
    #[derive(Clone, Copy, Debug, PartialEq, Eq)]
    pub struct Utf8Error;

    impl std::fmt::Display for Utf8Error {
        fn fmt(&self, f: &mut std::fmt::Formatter<'_>) -> std::fmt::Result {
            f.write_str("invalid utf-8 sequence")
        }
    }

    impl std::error::Error for Utf8Error {}

    pub fn from_utf8(bytes: &[u8]) -> Result<&str, Utf8Error> {
        match crate::ours::fault(bytes) {
            None => Ok(unsafe { std::str::from_utf8_unchecked(bytes) }),
            Some(_) => Err(Utf8Error),
        }
    }

    pub fn from_utf8_mut(bytes: &mut [u8]) -> Result<&mut str, Utf8Error> {
        from_utf8(bytes)?;
        Ok(unsafe { std::str::from_utf8_unchecked_mut(bytes) })
    }
}

pub mod compat {
    #[derive(Clone, Copy, Debug, PartialEq, Eq)]
    pub struct Utf8Error {
        valid_up_to: usize,
        error_len: Option<u8>,
    }

    impl Utf8Error {
        pub fn valid_up_to(&self) -> usize {
            self.valid_up_to
        }

        pub fn error_len(&self) -> Option<usize> {
            self.error_len.map(usize::from)
        }
    }

    impl std::fmt::Display for Utf8Error {
        fn fmt(&self, f: &mut std::fmt::Formatter<'_>) -> std::fmt::Result {
            match self.error_len {
                Some(len) => write!(f, "invalid utf-8 sequence of {} bytes from index {}", len, self.valid_up_to),
                None => write!(f, "incomplete utf-8 byte sequence from index {}", self.valid_up_to),
            }
        }
    }

    impl std::error::Error for Utf8Error {}

    pub fn from_utf8(bytes: &[u8]) -> Result<&str, Utf8Error> {
        match crate::ours::fault(bytes) {
            None => Ok(unsafe { std::str::from_utf8_unchecked(bytes) }),
            Some((valid_up_to, len)) => Err(Utf8Error { valid_up_to, error_len: len.map(|it| it as u8) }),
        }
    }

    pub fn from_utf8_mut(bytes: &mut [u8]) -> Result<&mut str, Utf8Error> {
        from_utf8(bytes)?;
        Ok(unsafe { std::str::from_utf8_unchecked_mut(bytes) })
    }
}
