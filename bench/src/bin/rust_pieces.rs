//! What `pieces` does, on the Rust crate: a line for each piece of standard input.

use encode_unicode::iterator::Utf8CharDecoder;
use std::io::{self, BufWriter, Read, Write};
use std::process::ExitCode;

fn main() -> ExitCode {
    match run() {
        Ok(0) => ExitCode::SUCCESS,
        Ok(_) => ExitCode::from(1),
        Err(error) => {
            eprintln!("rust_pieces: {error}");
            ExitCode::from(3)
        }
    }
}

// Lists the pieces, and returns how many of them are errors.
fn run() -> io::Result<usize> {
    let mut bytes = Vec::new();
    io::stdin().lock().read_to_end(&mut bytes)?;
    let mut out = BufWriter::new(io::stdout().lock());
    let mut errors = 0;
    for (place, answer, len) in Utf8CharDecoder::from(&bytes[..]) {
        match answer {
            Ok(c) => writeln!(out, "{place} {len} {:06x}", c.to_char() as u32)?,
            Err(error) => {
                errors += 1;
                writeln!(out, "{place} {len} {:?}", error.kind())?;
            }
        }
    }
    out.flush()?;
    Ok(errors)
}
