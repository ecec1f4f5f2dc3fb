//! Lists the pieces of standard input, as the program `pieces` does: offset, length, and the character or what is wrong.

use std::io::{self, Read, Write};
use std::process::ExitCode;

fn main() -> io::Result<ExitCode> {
    let mut bytes = Vec::new();
    io::stdin().read_to_end(&mut bytes)?;
    let mut out = io::BufWriter::new(io::stdout().lock());
    let mut status = 0;
    for piece in noddychest::pieces(&bytes) {
        match piece.result {
            Ok(c) => writeln!(out, "{} {} {:06x}", piece.offset, piece.len, u32::from(c))?,
            Err(fault) => {
                status = 1;
                writeln!(out, "{} {} {}", piece.offset, piece.len, fault.kind().name())?;
            }
        }
    }
    out.flush()?;
    Ok(ExitCode::from(status))
}
