//! What transcoding has to give, by std alone: one U+FFFD for each invalid byte of UTF-8, for each invalid unit of UTF-16, and
//! for an odd byte at the end of units, as docs/rattle/DEFINITIONS.md says.

/// What the bytes are converted to.
pub fn recode(from: usize, to: usize, src: &[u8]) -> Vec<u8> {
    written(to, &shown(from, src))
}

/// What the bytes show as text of the form.
pub fn shown(from: usize, src: &[u8]) -> String {
    if from == 0 {
        return shown_by_bytes(src);
    }
    let mark = "\u{fffd}".repeat(src.len() % 2);
    char::decode_utf16(units(from, src)).map(|c| c.unwrap_or(char::REPLACEMENT_CHARACTER)).collect::<String>() + &mark
}

fn shown_by_bytes(src: &[u8]) -> String {
    let mut text = String::new();
    let mut rest = src;
    loop {
        let valid = valid_up_to(rest);
        text.push_str(std::str::from_utf8(&rest[..valid]).expect("std said so"));
        if valid == rest.len() {
            return text;
        }
        text.push(char::REPLACEMENT_CHARACTER);
        rest = &rest[valid + 1..];
    }
}

/// The text in the form.
pub fn written(to: usize, text: &str) -> Vec<u8> {
    match to {
        0 => text.as_bytes().to_vec(),
        1 => text.encode_utf16().flat_map(u16::to_le_bytes).collect(),
        _ => text.encode_utf16().flat_map(u16::to_be_bytes).collect(),
    }
}

/// The units of which the bytes are the form, without an odd byte at the end.
pub fn units(from: usize, src: &[u8]) -> Vec<u16> {
    let order = if from == 1 { u16::from_le_bytes } else { u16::from_be_bytes };
    src.chunks_exact(2).map(|two| order([two[0], two[1]])).collect()
}

pub fn valid_up_to(src: &[u8]) -> usize {
    std::str::from_utf8(src).map_or_else(|error| error.valid_up_to(), str::len)
}

pub fn units_valid_up_to(units: &[u16]) -> usize {
    let all = char::decode_utf16(units.iter().copied());
    all.map_while(Result::ok).map(char::len_utf16).sum()
}

/// The last place up to `at` that is inside no character, no maximal subpart and no unit.
pub fn shard_end(from: usize, src: &[u8], at: usize) -> usize {
    if src.len() <= at {
        return src.len();
    }
    let unit = if from == 0 { 1 } else { 2 };
    let place = at - at % unit;
    let begins = (1..=3).rev().filter(|back| back % unit == 0 && *back <= place);
    let over = begins.map(|back| place - back).find(|start| place - start < part_len(from, &src[*start..]));
    over.unwrap_or(place)
}

// How many bytes the part has that begins these: a character, or what std replaces by one U+FFFD.
fn part_len(from: usize, src: &[u8]) -> usize {
    if from == 0 {
        let error_len = |error: std::str::Utf8Error| match error.valid_up_to() {
            0 => Some(error.error_len().unwrap_or(src.len())),
            _ => None,
        };
        let first = || (1..=4).find(|len| src.get(..*len).is_some_and(|code| std::str::from_utf8(code).is_ok()));
        return std::str::from_utf8(src).err().and_then(error_len).or_else(first).unwrap_or(0);
    }
    let units = units(from, src);
    match char::decode_utf16(units.iter().copied()).next() {
        Some(Ok(c)) => 2 * c.len_utf16(),
        Some(Err(error)) if src.len() == 3 && error.unpaired_surrogate() < 0xdc00 => 3,
        _ => src.len().min(2),
    }
}
