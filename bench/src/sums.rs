//! Checksums of what a worker saw.

/// What marks an error among scalar values: none has this bit.
pub const ERROR: u32 = 0x20_0000;

/// A checksum of words, which depends on their order: the sum of all sums that they have had.
///
/// Each of its two sums takes one addition for a word, and neither waits for more than the word before. So it
/// holds the work up as little as a checksum can.
#[derive(Default)]
pub struct Checksum {
    words: u64,
    sums: u64,
}

impl Checksum {
    /// One word more.
    #[inline(always)]
    pub fn add(&mut self, word: u64) {
        self.words = self.words.wrapping_add(word);
        self.sums = self.sums.wrapping_add(self.words);
    }

    #[inline(always)]
    pub fn value(self) -> u64 {
        self.sums
    }
}

/// An offset, a length below 8 and a scalar value or an error's number in one word.
#[inline(always)]
pub fn word_of(place: usize, len: usize, what: u32) -> u64 {
    ((place as u64) << 32).wrapping_add((what as u64) << 3).wrapping_add(len as u64)
}

#[inline(always)]
pub fn sum_of(words: impl Iterator<Item = u64>) -> u64 {
    let mut sum = Checksum::default();
    for word in words {
        sum.add(word);
    }
    sum.value()
}

#[inline(always)]
pub fn scalar(c: char) -> u64 {
    c as u64
}

#[inline(always)]
pub fn placed(place: usize, c: char) -> u64 {
    ((place as u64) << 32).wrapping_add(c as u64)
}

#[inline(always)]
pub fn sum_of_string(string: String) -> u64 {
    sum_of_bytes(string.into_bytes())
}

// By words of eight bytes.
#[inline(always)]
pub fn sum_of_bytes(bytes: Vec<u8>) -> u64 {
    let (words, rest) = bytes.as_chunks();
    let mut sum = Checksum::default();
    sum.add(bytes.len() as u64);
    for word in words {
        sum.add(u64::from_le_bytes(*word));
    }
    for byte in rest {
        sum.add(u64::from(*byte));
    }
    sum.value()
}

// By words of four units.
#[inline(always)]
pub fn sum_of_units(units: Vec<u16>) -> u64 {
    let (words, rest) = units.as_chunks();
    let mut sum = Checksum::default();
    sum.add(units.len() as u64);
    for [first, second, third, fourth] in words {
        let word = u64::from(*first) | u64::from(*second) << 16 | u64::from(*third) << 32 | u64::from(*fourth) << 48;
        sum.add(word);
    }
    for unit in rest {
        sum.add(u64::from(*unit));
    }
    sum.value()
}
