//! The program `pieces`, run on inputs, compared with lines made from the Rust crate's items.

use crate::inputs::{self, Random};
use crate::tally::Kind;
use crate::theirs;
use std::io::{self, Write};
use std::path::Path;
use std::process::{Command, Stdio};

/// Runs of the program: on damaged texts and random bytes one by one, and on many lists joined.
pub fn runs(program: &Path, seed: u64) -> io::Result<Vec<Kind>> {
    let mut random = Random::new(seed);
    let mut single: Vec<_> = (0..200)
        .map(|_| inputs::damaged_text(&mut random))
        .collect();
    single.extend((0..100).map(|_| inputs::random_edges(&mut random)));
    single.extend((0..100).map(|_| inputs::short_text(&mut random)));
    let mut joined = vec![inputs::short_lists().concat()];
    joined.extend((0..20).map(|_| joined_texts(&mut random)));
    Ok(vec![
        run_each("runs of pieces on one list", program, &single)?,
        run_each("runs of pieces on many lists joined", program, &joined)?,
    ])
}

// Two thousand damaged texts after one another.
fn joined_texts(random: &mut Random) -> Vec<u8> {
    (0..2_000)
        .flat_map(|_| inputs::damaged_text(random))
        .collect()
}

fn run_each(name: &'static str, program: &Path, inputs: &[Vec<u8>]) -> io::Result<Kind> {
    let mut kind = Kind::new(name);
    for bytes in inputs {
        let (lines, faulty) = theirs::listing(bytes);
        let wanted = format!("{lines}status {}\n", u8::from(faulty));
        let input = || {
            format!(
                "{:02x?}, {} bytes",
                &bytes[..bytes.len().min(40)],
                bytes.len()
            )
        };
        kind.compare_texts(input, &written(program, bytes)?, &wanted);
    }
    Ok(kind)
}

// What the program writes for the bytes, and a line with its status.
fn written(program: &Path, bytes: &[u8]) -> io::Result<String> {
    let mut child = Command::new(program)
        .stdin(Stdio::piped())
        .stdout(Stdio::piped())
        .spawn()?;
    // The program reads to the end before it writes. The pipe is closed at the end of the statement.
    child.stdin.take().expect("it is piped").write_all(bytes)?;
    let output = child.wait_with_output()?;
    let lines = String::from_utf8_lossy(&output.stdout);
    Ok(match output.status.code() {
        Some(status) => format!("{lines}status {status}\n"),
        None => format!("{lines}no status\n"),
    })
}
