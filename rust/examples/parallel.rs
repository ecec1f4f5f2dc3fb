//! Transcodes a file by several threads, as `recode` does by one, or counts its invalid bytes by kind. It needs memory for the file and for
//! the output.
//!
//! usage: `parallel recode FROM TO FILE OUT [JOBS]`, or `parallel check FROM FILE [JOBS]`; FROM and TO are `utf8`, `utf16le`, `utf16be`

use noddychest::{parallel, Encoding, FaultKind};
use std::error::Error;
use std::num::NonZeroUsize;
use std::process::ExitCode;
use std::{env, fs};

const USAGE: &str = "usage: parallel recode FROM TO FILE OUT [JOBS], or parallel check FROM FILE [JOBS]";

fn jobs_of(words: &[&str]) -> Result<Option<NonZeroUsize>, Box<dyn Error>> {
    match words {
        [] => Ok(None),
        [jobs] => Ok(Some(jobs.parse()?)),
        _ => Err(USAGE.into()),
    }
}

fn run(words: &[&str]) -> Result<(), Box<dyn Error>> {
    match words {
        ["recode", from, to, file, out, rest @ ..] => {
            let (from, to): (Encoding, Encoding) = (from.parse()?, to.parse()?);
            fs::write(out, parallel::recode(from, to, &fs::read(file)?, jobs_of(rest)?))?;
        }
        ["check", from, file, rest @ ..] => {
            let found = parallel::check(from.parse()?, &fs::read(file)?, jobs_of(rest)?);
            for &kind in FaultKind::ALL {
                println!("{} {kind}", found.iter().filter(|fault| fault.kind() == kind).count());
            }
        }
        _ => return Err(USAGE.into()),
    }
    Ok(())
}

fn main() -> ExitCode {
    let words: Vec<String> = env::args().skip(1).collect();
    match run(&words.iter().map(String::as_str).collect::<Vec<_>>()) {
        Ok(()) => ExitCode::SUCCESS,
        Err(error) => {
            eprintln!("parallel: {error}");
            ExitCode::from(2)
        }
    }
}
