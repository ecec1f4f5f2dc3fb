//! What transcoding has to give, by the crate `encoding_rs`, if the script found it.
//!
//! Its own mark is one U+FFFD for a maximal subpart, if there is one for each byte here. So it is asked to put out none,
//! and to say where each well-formed piece ends and how many bytes are faulty after it.

#[cfg(encoding_rs)]
use encoding_rs::{DecoderResult, UTF_16BE, UTF_16LE, UTF_8};

/// What the bytes show as text of the form. `None` if that crate is not installed.
#[cfg(encoding_rs)]
pub fn shown(from: usize, src: &[u8]) -> Option<String> {
    let mut decoder = [UTF_8, UTF_16LE, UTF_16BE][from].new_decoder_without_bom_handling();
    let mut room = vec![0; decoder.max_utf8_buffer_length_without_replacement(src.len())?];
    let mut text = String::new();
    let mut place = 0;
    loop {
        let (result, read, written) = decoder.decode_to_utf8_without_replacement(&src[place..], &mut room, true);
        place += read;
        text.push_str(std::str::from_utf8(&room[..written]).expect("its output is UTF-8"));
        match result {
            DecoderResult::InputEmpty => return Some(text),
            DecoderResult::OutputFull => panic!("there was room for all"),
            DecoderResult::Malformed(bytes, _) => text.push_str(&"\u{fffd}".repeat(faults_of(from, bytes.into()))),
        }
    }
}

// How many faults that number of invalid bytes is.
#[cfg(encoding_rs)]
fn faults_of(from: usize, bytes: usize) -> usize {
    if from == 0 {
        bytes
    } else {
        bytes.div_ceil(2)
    }
}

/// The bytes as UTF-8 with its own marks.
#[cfg(encoding_rs)]
pub fn lossy(src: &[u8]) -> Option<String> {
    Some(UTF_8.decode_without_bom_handling(src).0.into_owned())
}

#[cfg(not(encoding_rs))]
pub fn lossy(_src: &[u8]) -> Option<String> {
    None
}

#[cfg(not(encoding_rs))]
pub fn shown(_from: usize, _src: &[u8]) -> Option<String> {
    None
}
