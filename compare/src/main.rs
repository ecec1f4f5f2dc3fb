//! Compares this project with the Rust crate `encode_unicode`, which is the judge, on very many inputs.
//!
//! Arguments: the program `pieces`, a seed, and how many random lists of bytes to compare.

use compare::ends::{self, Slips};
use compare::tally::Kind;
use compare::{collections, kinds, mergers, program, recoding, tables, text_kinds, unit_decoder};
use std::path::Path;
use std::process::ExitCode;

fn main() -> ExitCode {
    let args: Vec<String> = std::env::args().skip(1).collect();
    let [program, seed, count] = args.as_slice() else {
        eprintln!("usage: compare PROGRAM SEED COUNT");
        return ExitCode::from(2);
    };
    let (Ok(seed), Ok(count)) = (seed.parse(), count.parse()) else {
        eprintln!("compare: the seed and the count are numbers");
        return ExitCode::from(2);
    };
    let Some((kinds, slips)) = compare_all(Path::new(program), seed, count) else {
        return ExitCode::from(2);
    };
    if print_sums(&kinds, &slips) == 0 {
        ExitCode::SUCCESS
    } else {
        ExitCode::FAILURE
    }
}

fn compare_all(program: &Path, seed: u64, count: usize) -> Option<(Vec<Kind>, Slips)> {
    println!("seed {seed}, count {count}");
    let mut all = Vec::new();
    print_and_keep(&mut all, kinds::lists(seed, count));
    let (walks, slips) = ends::walks(seed, count);
    print_and_keep(&mut all, walks);
    print_and_keep(&mut all, unit_decoder::lists(seed, count));
    print_and_keep(&mut all, mergers::lists(seed, count));
    print_and_keep(&mut all, kinds::numbers(seed));
    print_and_keep(&mut all, kinds::neighbours());
    print_and_keep(&mut all, kinds::codes(seed));
    print_and_keep(&mut all, vec![kinds::pairs(seed), kinds::error_texts()]);
    print_and_keep(&mut all, text_kinds::walks(seed, count));
    print_and_keep(&mut all, vec![text_kinds::codes(seed)]);
    print_and_keep(&mut all, text_kinds::splitters(seed, count));
    print_and_keep(&mut all, collections::texts(seed, count));
    print_and_keep(&mut all, tables::replacements(seed, count));
    print_and_keep(&mut all, recoding::lists(seed, count));
    match program::runs(program, seed) {
        Ok(runs) => print_and_keep(&mut all, runs),
        Err(error) => {
            eprintln!("compare: {}: {error}", program.display());
            return None;
        }
    }
    Some((all, slips))
}

fn print_and_keep(all: &mut Vec<Kind>, kinds: Vec<Kind>) {
    kinds.iter().for_each(Kind::print);
    all.extend(kinds);
}

// Prints the sums, and returns how many differ.
fn print_sums(kinds: &[Kind], slips: &Slips) -> u64 {
    let cases: u64 = kinds.iter().map(Kind::cases).sum();
    let differ: u64 = kinds.iter().map(Kind::differ).sum();
    kinds.iter().for_each(Kind::print_meant);
    slips.print();
    println!("{cases} cases, {differ} differ");
    differ
}
