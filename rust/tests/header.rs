//! The names, numbers, sentences and version of the crate compared with those of the library for C, in the repository.

use noddychest::{Encoding, FaultKind, Guess};

/// A file of the repository, or nothing in the package.
fn read(file: &str) -> String {
    let path = format!("{}/../{file}", env!("CARGO_MANIFEST_DIR"));
    std::fs::read_to_string(&path).unwrap_or_else(|_| {
        eprintln!("left out: {path} is not there");
        String::new()
    })
}

fn header() -> String {
    read("c/noddychest.h")
}

/// `TooFewBytes` as the header has it: `TOO_FEW_BYTES`.
fn of_header(name: &str) -> String {
    let mut out = String::new();
    for (place, c) in name.char_indices() {
        if c.is_ascii_uppercase() && place > 0 {
            out.push('_');
        }
        out.push(c.to_ascii_uppercase());
    }
    out
}

fn says(header: &str, name: &str, number: u8) {
    let told = format!("{name} = {number}");
    let is_there = [",", " ", "\n"].iter().any(|end| header.contains(&format!("{told}{end}")));
    assert!(header.is_empty() || is_there, "{told}");
}

#[test]
fn numbers_are_those_of_the_header() {
    let header = header();
    for &kind in FaultKind::ALL {
        says(&header, &format!("NODY_KIND_{}", of_header(kind.name())), kind as u8);
    }
    for &encoding in Encoding::ALL {
        says(&header, &format!("NODY_{}", encoding.name().to_uppercase()), encoding as u8);
    }
}

#[test]
fn guesses_are_those_of_the_header() {
    let header = header();
    for (number, guess) in (0..).zip(Guess::ALL) {
        let name = format!("nodyguess{guess:?}={number}").to_lowercase();
        let is_there = header.lines().any(|line| line.replace(['_', ' '], "").to_lowercase().starts_with(&name));
        assert!(header.is_empty() || is_there, "{name}");
        assert!(header.is_empty() || header.contains(&format!("        \"{}\",\n", guess.text())), "{guess}");
    }
}

#[test]
fn names_are_those_of_the_kinds() {
    for &kind in FaultKind::ALL {
        assert_eq!(kind.name(), format!("{kind:?}"));
    }
}

#[test]
fn sentences_are_those_of_the_library_for_c() {
    let kinds = read("crates/c_api/src/kinds.rt");
    for &kind in FaultKind::ALL {
        assert!(kinds.is_empty() || kinds.contains(&format!("b\"{}\\0", kind.sentence())), "{kind}");
    }
}

#[test]
fn the_version_is_that_of_the_header() {
    let header = header();
    let number = |name: &str| {
        let found = header.split_once(&format!("#define NODY_VERSION_{name} ")).map(|(_, rest)| rest);
        found.and_then(|rest| rest.split_whitespace().next()).unwrap_or_default().to_string()
    };
    let version = ["MAJOR", "MINOR", "PATCH"].map(number).join(".");
    assert!(header.is_empty() || version == env!("CARGO_PKG_VERSION"), "{version}");
}
