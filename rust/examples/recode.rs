//! Transcodes standard input to standard output, as the program `recode` does; with `--strict` it stops at the first invalid byte.
//!
//! usage: `recode [--strict] FROM TO`, each of `utf8`, `utf16le`, `utf16be`

use noddychest::io::RecodingReader;
use noddychest::{Encoding, Recoder};
use std::error::Error;
use std::io::{self, Write};
use std::process::ExitCode;

fn recode(mut words: Vec<String>) -> Result<(), Box<dyn Error>> {
    let is_strict = words.first().is_some_and(|it| it == "--strict");
    words.drain(..usize::from(is_strict));
    let [from, to]: [String; 2] = words.try_into().map_err(|_| "usage: recode [--strict] FROM TO")?;
    let (from, to): (Encoding, Encoding) = (from.parse()?, to.parse()?);
    let recoder = if is_strict { Recoder::strict(from, to) } else { Recoder::new(from, to) };
    let mut out = io::stdout().lock();
    io::copy(&mut RecodingReader::new(io::stdin().lock(), recoder), &mut out)?;
    out.flush()?;
    Ok(())
}

fn main() -> ExitCode {
    match recode(std::env::args().skip(1).collect()) {
        Ok(()) => ExitCode::SUCCESS,
        Err(error) => {
            eprintln!("recode: {error}");
            ExitCode::from(2)
        }
    }
}
