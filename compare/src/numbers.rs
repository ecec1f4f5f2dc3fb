//! Results as plain numbers.

use std::io;

/// The number of the first variant of each type of error.
pub const FIRST_ERROR: u64 = 0x8000_0000;

/// In place of a number that is missing.
pub const NOTHING: u64 = 0xffff_ffff;

/// The name of the number that `error_range` begins with.
pub const RANGE_START: &str = "error_range().start()";

/// The results for one input: each with the name of the call that returned it.
#[derive(Default)]
pub struct Answers {
    pub names: Vec<&'static str>,
    pub numbers: Vec<u64>,
}

impl Answers {
    pub fn put(&mut self, name: &'static str, number: u64) {
        self.names.push(name);
        self.numbers.push(number);
    }

    /// These results, followed by those of another call.
    pub fn and(mut self, other: Answers) -> Answers {
        self.names.extend(other.names);
        self.numbers.extend(other.numbers);
        self
    }

    pub fn put_size(&mut self, name: &'static str, size: usize) {
        self.put(name, size as u64);
    }

    pub fn put_bool(&mut self, name: &'static str, answer: bool) {
        self.put(name, u64::from(answer));
    }

    pub fn put_char(&mut self, name: &'static str, c: char) {
        self.put(name, u64::from(u32::from(c)));
    }

    pub fn put_bytes(&mut self, name: &'static str, bytes: &[u8]) {
        for byte in bytes {
            self.put(name, u64::from(*byte));
        }
    }

    pub fn put_units(&mut self, name: &'static str, units: &[u16]) {
        for unit in units {
            self.put(name, u64::from(*unit));
        }
    }

    pub fn put_tuple(&mut self, name: &'static str, (first, second): (u16, Option<u16>)) {
        self.put(name, u64::from(first));
        self.put(name, second.map_or(NOTHING, u64::from));
    }

    /// The scalar, or the number of the error.
    pub fn put_answer<C, E>(&mut self, name: &'static str, answer: Result<C, E>)
    where
        C: Into<char>,
        E: ErrorNumber,
    {
        match answer {
            Ok(c) => self.put_char(name, c.into()),
            Err(error) => self.put(name, error.number()),
        }
    }

    /// A piece: its offset, its length, and the scalar or the number of the error.
    pub fn put_item<C, E>(&mut self, offset: usize, answer: Result<C, E>, len: usize)
    where
        C: Into<char>,
        E: ErrorNumber,
    {
        self.put_size("offset", offset);
        self.put_size("length", len);
        self.put_answer("item", answer);
    }

    pub fn put_hint(&mut self, (least, most): (usize, Option<usize>)) {
        self.put_size("size_hint().0", least);
        self.put("size_hint().1", most.map_or(NOTHING, |most| most as u64));
    }

    pub fn put_next(&mut self, item: Option<impl Into<u64>>) {
        self.put("next()", item.map_or(NOTHING, Into::into));
    }

    /// How many bytes were read, if the read did not fail, and all bytes of the buffer.
    pub fn put_read(&mut self, read: io::Result<usize>, buffer: &[u8]) {
        self.put("read()", read.map_or(NOTHING, |count| count as u64));
        self.put_bytes("buffer of a read", buffer);
    }

    pub fn put_text(&mut self, name: &'static str, text: &str) {
        self.put_size(name, text.len());
        self.put_bytes(name, text.as_bytes());
    }

    /// The scalar and the length, or the number of the error and 0.
    pub fn put_front<C, E>(&mut self, name: &'static str, answer: Result<(C, usize), E>)
    where
        C: Into<char>,
        E: ErrorNumber,
    {
        let len = answer.as_ref().map_or(0, |(_, len)| *len);
        self.put_answer(name, answer.map(|(c, _)| c));
        self.put_size(name, len);
    }
}

/// The number of an error, by its place among the variants of its type.
pub trait ErrorNumber {
    fn number(&self) -> u64;
}
