//! Each kind of inputs, compared.

use crate::inputs::{self, Random, EDGE_CHARS};
use crate::tally::Kind;
use crate::{library, ours, theirs};

/// The lists of bytes, as decoders and as texts.
pub fn lists(seed: u64, count: usize) -> Vec<Kind> {
    let random = &mut Random::new(seed);
    let third = count.div_ceil(3);
    vec![
        list_kind("lists of up to three edge bytes", inputs::short_lists()),
        list_kind(
            "lists of 4 to 40 bytes",
            (0..third).map(|_| inputs::random_list(random)),
        ),
        list_kind(
            "lists of 4 to 40 edge bytes",
            (0..third).map(|_| inputs::random_edges(random)),
        ),
        list_kind(
            "texts, damaged",
            (0..third).map(|_| inputs::damaged_text(random)),
        ),
        text_kind(
            "texts of up to three characters",
            (0..third).map(|_| inputs::short_text(random)),
        ),
    ]
}

pub(crate) fn list_kind(name: &'static str, lists: impl IntoIterator<Item = Vec<u8>>) -> Kind {
    let mut kind = Kind::new(name);
    for list in lists {
        let input = || format!("{list:02x?}");
        let ours = ours::decoders(&list).and(ours::text(&list)).and(library::pieces(&list));
        let judged = theirs::decoders(&list).and(theirs::text(&list)).and(theirs::pieces(&list));
        kind.compare(input, &ours, &judged);
    }
    kind
}

fn text_kind(name: &'static str, texts: impl IntoIterator<Item = Vec<u8>>) -> Kind {
    let mut kind = Kind::new(name);
    for text in texts {
        let input = || format!("{text:02x?}");
        kind.compare(input, &ours::text(&text), &theirs::text(&text));
    }
    kind
}

/// Every number, as a number and as a character of each type.
pub fn numbers(seed: u64) -> Vec<Kind> {
    let numbers = inputs::numbers(&mut Random::new(seed));
    let mut plain = Kind::new("numbers, from_u32_detailed");
    let mut chars = Kind::new("numbers, as char");
    let mut utf8 = Kind::new("numbers, as Utf8Char");
    let mut utf16 = Kind::new("numbers, as Utf16Char");
    let mut shown = Kind::new("numbers, Display and Debug of both");
    for number in numbers {
        let input = || format!("{number:#x}");
        let (byte, unit) = (number as u8, number as u16);
        plain.compare(input, &ours::number(number), &theirs::number(number));
        chars.compare(input, &ours::of_char(number), &theirs::of_char(number));
        utf8.compare(
            input,
            &ours::utf8_char(number, byte),
            &theirs::utf8_char(number, byte),
        );
        utf16.compare(
            input,
            &ours::utf16_char(number, byte, unit),
            &theirs::utf16_char(number, byte, unit),
        );
        shown.compare(input, &ours::shown(number), &theirs::shown(number));
    }
    vec![plain, chars, utf8, utf16, shown]
}

/// Characters beside bytes and units that are not their own.
pub fn neighbours() -> Vec<Kind> {
    vec![beside_bytes(), beside_units()]
}

fn beside_bytes() -> Kind {
    let mut kind = Kind::new("characters below U+0400 beside each byte");
    for (number, byte) in
        (0..0x400).flat_map(|number| (0..=u8::MAX).map(move |byte| (number, byte)))
    {
        let input = || format!("{number:#x} beside {byte:#x}");
        let unit = u16::from(byte);
        let ours = ours::utf8_char(number, byte).and(ours::utf16_char(number, byte, unit));
        kind.compare(input, &ours, &theirs::utf8_char(number, byte).and(theirs::utf16_char(number, byte, unit)));
    }
    kind
}

fn beside_units() -> Kind {
    let mut kind = Kind::new("edge characters beside each unit");
    let pairs = EDGE_CHARS
        .into_iter()
        .flat_map(|c| (0..=u16::MAX).map(move |unit| (u32::from(c), unit)));
    for (number, unit) in pairs {
        let input = || format!("{number:#x} beside {unit:#x}");
        let byte = unit as u8;
        kind.compare(
            input,
            &ours::utf16_char(number, byte, unit),
            &theirs::utf16_char(number, byte, unit),
        );
    }
    kind
}

/// Every byte and every unit, and arrays of them.
pub fn codes(seed: u64) -> Vec<Kind> {
    let mut random = Random::new(seed);
    vec![
        bytes(),
        units(),
        two_units(inputs::unit_pairs(&mut random)),
        four_bytes(inputs::arrays(&mut random)),
    ]
}

fn bytes() -> Kind {
    let mut kind = Kind::new("bytes");
    for byte in 0..=u8::MAX {
        kind.compare(
            || format!("{byte:#x}"),
            &ours::byte(byte),
            &theirs::byte(byte),
        );
    }
    kind
}

fn units() -> Kind {
    let mut kind = Kind::new("units");
    for unit in 0..=u16::MAX {
        kind.compare(
            || format!("{unit:#x}"),
            &ours::unit(unit),
            &theirs::unit(unit),
        );
    }
    kind
}

fn two_units(pairs: Vec<(u16, u16)>) -> Kind {
    let mut kind = Kind::new("two units");
    for (first, second) in pairs {
        let input = || format!("{first:#x}, {second:#x}");
        kind.compare(
            input,
            &ours::two_units(first, second),
            &theirs::two_units(first, second),
        );
    }
    kind
}

fn four_bytes(arrays: Vec<[u8; 4]>) -> Kind {
    let mut kind = Kind::new("four bytes, and each of their beginnings");
    for array in arrays {
        let input = || format!("{array:02x?}");
        kind.compare(input, &ours::four_bytes(array), &theirs::four_bytes(array));
    }
    kind
}

/// Two characters, compared.
pub fn pairs(seed: u64) -> Kind {
    let mut kind = Kind::new("two characters");
    for (one, other) in inputs::char_pairs(&mut Random::new(seed)) {
        let input = || format!("{one:?}, {other:?}");
        kind.compare(
            input,
            &ours::two_chars(one, other),
            &theirs::two_chars(one, other),
        );
    }
    kind
}

/// The texts of the errors.
pub fn error_texts() -> Kind {
    let mut kind = Kind::new("texts of errors");
    for (number, (ours, judged)) in ours::error_texts().iter().zip(theirs::error_texts()).enumerate() {
        for (place, (ours, judged)) in ours.iter().zip(judged).enumerate() {
            kind.compare_texts(|| format!("error {place} of type {number}"), ours, &judged);
        }
    }
    kind
}
