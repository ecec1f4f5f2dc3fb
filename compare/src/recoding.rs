//! Transcoding in all nine pairs of forms, compared with two judges: std, and the decoders of the Rust crate. The crate for Cargo converts the
//! whole into memory, and the library for C in parts, and into rooms. How far bytes and units are well-formed is compared as well.

use crate::inputs::{self, Random};
use crate::tally::Kind;
use crate::{judge, recoder};
use encode_unicode::iterator::{Utf16CharDecoder, Utf8CharDecoder};
use noddychest::Encoding;

/// Bytes as texts of each form, cut at random.
pub fn lists(seed: u64, count: usize) -> Vec<Kind> {
    let random = &mut Random::new(seed);
    let third = count.div_ceil(3);
    let mut kinds = Vec::new();
    for (name, made) in [
        ("recoding: lists of 4 to 40 edge bytes", inputs::random_edges as fn(&mut Random) -> Vec<u8>),
        ("recoding: texts, damaged", inputs::damaged_text),
        ("recoding: texts of up to 400 characters, damaged", inputs::long_text),
    ] {
        let mut kind = Kind::new(name);
        for _ in 0..third {
            let bytes = made(random);
            let cuts: Vec<u8> = (0..random.below(9)).map(|_| random.byte()).collect();
            compare(&mut kind, &bytes, &cuts);
        }
        kinds.push(kind);
    }
    kinds
}

/// The bytes, as text of each form: fed in parts of these lengths, and into rooms of these sizes.
pub fn compare(kind: &mut Kind, bytes: &[u8], cuts: &[u8]) {
    let lengths: Vec<u32> = cuts.iter().map(|len| u32::from(*len)).collect();
    let calls: Vec<[u32; 2]> = lengths.chunks_exact(2).map(|two| [two[0], two[1]]).collect();
    let last = usize::from(*cuts.last().unwrap_or(&0)) % 10;
    for (from, to) in recoder::pairs() {
        let judged = judge::recode(from, to, bytes);
        let input = |how: &str| format!("{} to {}{how} {cuts:?}: {bytes:02x?}", recoder::FORMS[from], recoder::FORMS[to]);
        kind.compare_equal(|| input(", std and the Rust crate"), &judge::written(to, &shown(from, bytes)), &judged);
        kind.compare_equal(|| input(" by the crate"), &noddychest::recode(Encoding::ALL[from], Encoding::ALL[to], bytes), &judged);
        let judged = Some(judged);
        kind.compare_equal(|| input(" in parts"), &recoder::recode(from, to, bytes, &lengths), &judged);
        kind.compare_equal(|| input(" in rooms"), &recoder::recode_into(from, to, bytes, &calls, last), &judged);
    }
    compare_places(kind, bytes);
}

// The text that the bytes show, by the decoders of the Rust crate, whose errors are one byte or one unit each.
fn shown(from: usize, bytes: &[u8]) -> String {
    if from == 0 {
        let answers = Utf8CharDecoder::from(bytes).map(|(_, answer, _)| answer.map(|c| c.to_char()));
        return answers.map(|answer| answer.unwrap_or(char::REPLACEMENT_CHARACTER)).collect();
    }
    let units = judge::units(from, bytes);
    let answers = Utf16CharDecoder::from(&units[..]).map(|(_, answer, _)| answer.map(|c| c.to_char()));
    let text: String = answers.map(|answer| answer.unwrap_or(char::REPLACEMENT_CHARACTER)).collect();
    text + &"\u{fffd}".repeat(bytes.len() % 2)
}

fn compare_places(kind: &mut Kind, bytes: &[u8]) {
    let input = || format!("well-formed: {bytes:02x?}");
    kind.compare_equal(input, &recoder::valid_up_to(bytes), &Some(judge::valid_up_to(bytes)));
    for from in [1, 2] {
        let units = judge::units(from, bytes);
        let input = || format!("well-formed: {units:04x?}");
        kind.compare_equal(input, &recoder::units_valid_up_to(&units), &Some(judge::units_valid_up_to(&units)));
    }
    for from in 0..3 {
        let at = bytes.len() * 2 / 3;
        let input = || format!("{} shard of {at}: {bytes:02x?}", recoder::FORMS[from]);
        kind.compare_equal(input, &recoder::shard_end(from, bytes, at), &judge::shard_end(from, bytes, at));
    }
}
