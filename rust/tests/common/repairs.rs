//! What invalid bytes become by a table, as the text of that table has it.

use super::{encoded, of_encoding, Chance, End};
use noddychest::{Encoding, Repair};

/// The bytes from 80 to 9F in Windows-1252, as Python's codec `cp1252` decodes them. It decodes no 81, 8D, 8F, 90 and 9D, which the Encoding
/// Standard takes for the control characters of these numbers. From A0 on a byte is the character of its number.
const WINDOWS_1252: &str = "€\u{81}‚ƒ„…†‡ˆ‰Š‹Œ\u{8D}Ž\u{8F}\u{90}‘’“”•–—˜™š›œ\u{9D}žŸ";

/// What is written for a byte from 80 on, and for a lone surrogate or an odd last byte.
pub struct Table {
    bytes: Vec<Option<char>>,
    unit: Option<char>,
}

impl Table {
    fn new(char_for: impl FnMut(u8) -> Option<char>) -> Table {
        Table { bytes: (0x80..=u8::MAX).map(char_for).collect(), unit: Some('\u{FFFD}') }
    }

    pub fn of_byte(&self, byte: u8) -> Option<char> {
        self.bytes[usize::from(byte) - 0x80]
    }
}

/// Each named table, and one of random characters.
pub fn some_repairs(chance: &mut Chance) -> [(Table, Repair); 4] {
    let own = Table::new(|_| Some(chance.char()).filter(|it| u32::from(*it) < 0x1_0000));
    let made = Repair::from_fn(|byte| own.of_byte(byte)).expect("no character is above U+FFFF");
    let windows: Vec<char> = WINDOWS_1252.chars().collect();
    [
        (Table { unit: None, ..Table::new(|_| None) }, Repair::DROP),
        (Table::new(|byte| windows.get(usize::from(byte) - 0x80).copied().or(Some(char::from(byte)))), Repair::WINDOWS_1252),
        (Table::new(|byte| Some(char::from(byte))), Repair::LATIN_1),
        (own, made),
    ]
}

/// One of them.
pub fn some_repair(chance: &mut Chance) -> (Table, Repair) {
    let at = chance.below(4);
    some_repairs(chance).into_iter().nth(at).expect("there are four")
}

/// What std makes of it, with what the table has for each fault.
pub fn repaired(from: Encoding, to: Encoding, bytes: &[u8], table: &Table) -> Vec<u8> {
    let chars = of_encoding(from, bytes, End::OfSlice).into_iter().filter_map(|(at, _, answer)| match answer {
        Ok(c) => Some(c),
        Err(_) if from == Encoding::Utf8 => table.of_byte(bytes[at]),
        Err(_) => table.unit,
    });
    encoded(to, chars)
}
