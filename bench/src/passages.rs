//! Running text as people write it, made from short passages of our own in an order that a fixed seed decides.

use crate::inputs::{of_text, Input, Random};

const PASSAGES: &str = include_str!("../passages.txt");

/// The names of the inputs, in the order of the tables. The last two are faulty.
pub const NAMES: [&str; 10] =
    ["ascii", "latin", "cyrillic", "arabic", "chinese", "japanese", "emoji", "markup", "log", "random"];
/// The inputs of which short texts are taken.
pub const SHORT_NAMES: [&str; 3] = ["ascii", "latin", "japanese"];
/// How many bytes a short text has in UTF-8. In UTF-16 it has as many, or one more if the number is odd.
pub const SHORT_LENGTHS: [usize; 5] = [1, 7, 16, 40, 200];
const SCRIPTS: [&str; 7] = ["ascii", "latin", "cyrillic", "arabic", "chinese", "japanese", "emoji"];

/// The input of that name, with at least `size` bytes of UTF-8.
pub fn make(name: &str, size: usize) -> Option<Input> {
    let mut random = Random(0x5eed_0000_0000_0002);
    match name {
        "markup" => Some(of_text(repeated(&mut random, size, paragraph))),
        "log" => Some(damaged_log(&mut random, size)),
        "random" => Some(noise(&mut random, size)),
        _ if SCRIPTS.contains(&name) => Some(of_text(repeated(&mut random, size, |random| sentence(random, name)))),
        _ => None,
    }
}

fn repeated(random: &mut Random, size: usize, one: impl Fn(&mut Random) -> String) -> String {
    let mut text = String::with_capacity(size + 1024);
    while text.len() < size {
        text.push_str(&one(random));
    }
    text
}

// A sentence, and what follows it: a line feed after one in six, or otherwise a space if the script has spaces.
fn sentence(random: &mut Random, script: &str) -> String {
    let sentence = picked(random, script);
    let end = match random.below(6) {
        0 => "\n",
        _ if sentence.ends_with('。') => "",
        _ => " ",
    };
    format!("{sentence}{end}")
}

fn picked(random: &mut Random, script: &str) -> &'static str {
    let head = format!("[{script}]");
    let section = PASSAGES.lines().skip_while(|line| *line != head).skip(1).take_while(|line| !line.starts_with('['));
    let sentences: Vec<&str> = section.collect();
    sentences[random.below(sentences.len() as u64) as usize]
}

// A paragraph of markup with a sentence of any script in it.
fn paragraph(random: &mut Random) -> String {
    let script = SCRIPTS[random.below(SCRIPTS.len() as u64) as usize];
    let (number, page) = (random.below(10_000), random.below(500));
    let (first, second) = (picked(random, script), picked(random, script));
    format!(
        "<section id=\"s{number}\" class=\"entry {script}\">\n  <h2><a href=\"/pages/{page}.html\">{number}</a></h2>\n  \
         <p>{first} <em class=\"note\">{second}</em></p>\n</section>\n"
    )
}

fn log_line(random: &mut Random) -> String {
    let script = SCRIPTS[random.below(SCRIPTS.len() as u64) as usize];
    let [hour, minute, second] = [24, 60, 60].map(|bound| random.below(bound));
    let (request, took) = (random.below(100_000), random.below(900));
    let said = picked(random, script);
    format!("2026-11-24T{hour:02}:{minute:02}:{second:02}Z worker: request={request} said=\"{said}\" took={took} ms\n")
}

// Lines of a log, in each of which a byte is one that ASCII has not, or a unit is a surrogate.
fn damaged_log(random: &mut Random, size: usize) -> Input {
    let (mut bytes, mut units) = (Vec::with_capacity(size), Vec::with_capacity(size));
    while bytes.len() < size {
        let line = log_line(random);
        let (first_byte, first_unit) = (bytes.len(), units.len());
        bytes.extend_from_slice(line.as_bytes());
        units.extend(line.encode_utf16());
        let place = first_byte + random.below(line.len() as u64) as usize;
        bytes[place] = 0x80 + random.below(0x80) as u8;
        let place = first_unit + random.below((units.len() - first_unit) as u64) as usize;
        units[place] = 0xd800 + random.below(0x800) as u16;
    }
    Input::faulty(bytes, units)
}

fn noise(random: &mut Random, size: usize) -> Input {
    let bytes: Vec<u8> = (0..size).map(|_| random.next() as u8).collect();
    let units = (0..size / 2).map(|_| random.next() as u16).collect();
    Input::faulty(bytes, units)
}

/// Short texts, each of the same number of bytes in UTF-8, or of units in UTF-16, joined.
pub struct Short {
    pub bytes: Vec<u8>,
    pub units: Vec<u16>,
    pub units_each: usize,
}

/// Short texts of the input of that name, each from where the one before ended, with full stops if no further
/// character fits.
pub fn short(name: &str, bytes_each: usize, count: usize) -> Option<Short> {
    let input = make(name, 8 * (bytes_each + 4) * count)?;
    let units_each = bytes_each.div_ceil(2);
    let bytes = cut(input.text(), count, bytes_each, char::len_utf8).into_bytes();
    let units = cut(input.text(), count, units_each, char::len_utf16).encode_utf16().collect();
    Some(Short { bytes, units, units_each })
}

fn cut(text: &str, count: usize, each: usize, len: impl Fn(char) -> usize) -> String {
    let (mut made, mut chars) = (String::new(), text.chars().peekable());
    for _ in 0..count {
        let mut left = each;
        while let Some(c) = chars.next_if(|c| len(*c) <= left) {
            made.push(c);
            left -= len(c);
        }
        made.extend(std::iter::repeat_n('.', left));
        // A character that fits in no short text would block all others.
        chars.next_if(|c| len(*c) > each);
    }
    made
}
