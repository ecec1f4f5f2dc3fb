//! Asks both sides the same on random inputs, to be watched by valgrind. Arguments: a seed, and how many inputs.

use compare::inputs::Random;
use compare::one_input::Input;
use std::panic;
use std::process::ExitCode;

fn main() -> ExitCode {
    let args: Vec<String> = std::env::args().skip(1).collect();
    let numbers: Option<Vec<u64>> = args.iter().map(|arg| arg.parse().ok()).collect();
    let Some([seed, count]) = numbers.as_deref() else {
        eprintln!("usage: memory SEED COUNT");
        return ExitCode::from(2);
    };
    // The comparison expects some panics of the Rust crate.
    panic::set_hook(Box::new(|_| {}));
    let random = &mut Random::new(*seed);
    let differences: Vec<String> = (0..*count).filter_map(|_| Input::random(random).difference()).collect();
    println!("seed {seed}: {count} inputs, {} differ", differences.len());
    differences.iter().take(5).for_each(|difference| println!("    {difference}"));
    ExitCode::from(u8::from(!differences.is_empty()))
}
