//! Surveys and guesses: of texts whose encoding is known, whole, in parts and from readers.

mod common;

use noddychest::{guess, survey, Guess, Survey, Surveyor};
use std::io::{Read, Write};

const FRENCH: &str = "Le café où l'été dernier nous étions à l'aise, « déjà vu » : naïveté, garçon.\n";
const RUSSIAN: &str = "Все счастливые семьи похожи друг на друга.\n";
const CHINESE: &str = "人人生而自由，在尊严和权利上一律平等。\n";
/// The Russian words for "all families", as Python's codecs `koi8-r` and `cp1251` encode them.
const KOI8: &[u8] = b"\xF7\xD3\xC5 \xD3\xC5\xCD\xD8\xC9";
const CP1251: &[u8] = b"\xC2\xF1\xE5 \xF1\xE5\xEC\xFC\xE8";

fn latin1(text: &str) -> Vec<u8> {
    text.chars().map(|c| u8::try_from(c as u32).unwrap()).collect()
}

fn units(text: &str, of: fn(u16) -> [u8; 2]) -> Vec<u8> {
    text.encode_utf16().flat_map(of).collect()
}

fn texts() -> Vec<(Vec<u8>, Guess)> {
    let marked = |text: &str| format!("\u{FEFF}{text}");
    vec![
        (b"plain text\n".to_vec(), Guess::Ascii),
        (Vec::new(), Guess::Ascii),
        (FRENCH.into(), Guess::Utf8),
        (RUSSIAN.into(), Guess::Utf8),
        (CHINESE.into(), Guess::Utf8),
        (marked(FRENCH).into(), Guess::Utf8Marked),
        (units(FRENCH, u16::to_le_bytes), Guess::Utf16Le),
        (units(RUSSIAN, u16::to_be_bytes), Guess::Utf16Be),
        (units(&marked(RUSSIAN), u16::to_le_bytes), Guess::Utf16LeMarked),
        (units(&marked(CHINESE), u16::to_be_bytes), Guess::Utf16BeMarked),
        (b"\xFF\xFE\0\0a\0\0\0".to_vec(), Guess::Utf32),
        (latin1(FRENCH), Guess::Windows1252),
        (KOI8.to_vec(), Guess::Other8Bit),
        (CP1251.to_vec(), Guess::Other8Bit),
        (FRENCH.bytes().map(char::from).collect::<String>().into(), Guess::Utf8Twice),
        (RUSSIAN.as_bytes()[1..].to_vec(), Guess::Utf8Cut),
        ([RUSSIAN.as_bytes(), b"\xE9!"].concat(), Guess::Utf8Mixed),
        (b"a\xED\xA0\xBD\xED\xB8\x80".to_vec(), Guess::Utf8Surrogates),
        (b"\x7FELF\x02\x01\x01".to_vec(), Guess::Binary),
    ]
}

#[test]
fn texts_whose_encoding_is_known() {
    for (bytes, wanted) in texts() {
        assert_eq!(guess(&bytes), wanted, "{bytes:x?}");
        let guesses = survey(&bytes).guesses();
        assert_eq!(guesses[0], wanted);
        assert!(guesses.len() <= 3 && (1..guesses.len()).all(|at| !guesses[..at].contains(&guesses[at])));
    }
}

#[test]
fn the_others_follow_the_best() {
    assert_eq!(*survey(b"caf\xE9").guesses(), [Guess::Windows1252, Guess::Other8Bit]);
    assert_eq!(*survey(KOI8).guesses(), [Guess::Other8Bit, Guess::Windows1252]);
    assert_eq!(*survey(b"a \x81").guesses(), [Guess::Other8Bit]);
    assert_eq!(*survey(b"caf\xC3\xA9 caf\xC3").guesses(), [Guess::Utf8Cut, Guess::Utf8Mixed, Guess::Windows1252]);
    assert_eq!(*survey(b"h\0i\0").guesses(), [Guess::Utf16Le, Guess::Binary]);
    assert_eq!(*survey(b"a\0b c d e").guesses(), [Guess::Binary, Guess::Ascii]);
}

#[test]
fn characters_and_faults_are_those_of_std() {
    let mut chance = common::Chance(3);
    for _ in 0..500 {
        let bytes = chance.bytes(60);
        let counts = survey(&bytes);
        let (mut chars, mut faults) = (0, 0);
        for chunk in bytes.utf8_chunks() {
            chars += chunk.valid().chars().filter(|c| !c.is_ascii()).count() as u64;
            faults += chunk.invalid().len() as u64;
        }
        assert_eq!((counts.len, counts.utf8.chars, counts.utf8.faults), (bytes.len() as u64, chars, faults), "{bytes:x?}");
        assert_eq!(counts.nul, bytes.iter().filter(|it| **it == 0).count() as u64);
    }
}

#[test]
fn parts_are_surveyed_as_the_whole() {
    for (bytes, _) in texts() {
        let whole = survey(&bytes);
        for len in [1, 2, 3, 5, 16, 17, 33] {
            let mut surveyor = Surveyor::default();
            for part in bytes.chunks(len) {
                let before: Survey = surveyor.clone().survey();
                surveyor.feed(&[]);
                assert_eq!(surveyor.survey(), before);
                surveyor.feed(part);
            }
            assert_eq!(surveyor.survey(), whole);
        }
    }
}

#[test]
fn a_clone_goes_on_by_itself() {
    let mut first = Surveyor::new();
    first.feed(b"caf\xC3");
    let mut other = first.clone();
    other.feed(b"\xA9");
    assert_eq!((first.survey().guess(), other.survey().guess()), (Guess::Windows1252, Guess::Utf8));
}

#[test]
fn a_reader_is_copied_to_a_surveyor() {
    let text = RUSSIAN.repeat(10_000);
    let mut surveyor = Surveyor::new();
    let copied = std::io::copy(&mut text.as_bytes().chain(&b"\xFF"[..]), &mut surveyor).unwrap();
    assert_eq!((surveyor.survey().len, surveyor.survey().utf8.faults), (copied, 1));
    assert!(write!(surveyor, "é").is_ok() && surveyor.flush().is_ok());
    assert_eq!(surveyor.survey().len, copied + 2);
}

#[test]
fn a_reader_that_fails_leaves_what_was_fed() {
    struct Broken;
    impl Read for Broken {
        fn read(&mut self, _: &mut [u8]) -> std::io::Result<usize> {
            Err(std::io::ErrorKind::Other.into())
        }
    }
    let mut surveyor = Surveyor::new();
    assert!(std::io::copy(&mut b"abc".chain(Broken), &mut surveyor).is_err());
    assert_eq!(surveyor.survey().len, 3);
}

#[test]
fn a_guess_is_shown_by_its_text() {
    assert_eq!(format!("{:>10}|{}", Guess::Ascii, Guess::Binary), "     ASCII|not text");
    for it in Guess::ALL {
        assert_eq!(it.to_string(), it.text());
        assert_eq!(Guess::ALL.iter().filter(|other| *other == it).count(), 1);
    }
}
