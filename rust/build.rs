//! In the repository: makes `src/proved` of the proved sources, by `scripts/erase`. The package has that folder, and no build script.

use std::env;
use std::path::Path;
use std::process::{self, Command};

/// Files that only the repository has: if one of these is missing, no script outside this folder is run.
const OF_REPOSITORY: [&str; 4] = ["scripts/erase", "rust/eraser/eraser.py", "crates.txt", "crates/utf_base/src/lib.rt"];

/// Ends the build with one sentence.
fn stop(what: &str) -> ! {
    eprintln!("noddychest: {what}");
    process::exit(1);
}

fn main() {
    println!("cargo:rerun-if-changed=build.rs");
    let here = env::var("CARGO_MANIFEST_DIR").unwrap_or_default();
    let (top, made) = (Path::new(&here).join(".."), Path::new(&here).join("src/proved"));
    if !OF_REPOSITORY.iter().all(|it| top.join(it).is_file()) {
        if !made.join("MANIFEST").is_file() {
            stop("src/proved is missing: it is part of the package, and scripts/erase makes it in the repository.");
        }
        return;
    }
    for it in ["crates", "scripts/erase", "rust/eraser"] {
        println!("cargo:rerun-if-changed={}", top.join(it).display());
    }
    let python = env::var("PYTHON").unwrap_or_else(|_| "python3".to_string());
    match Command::new(&python).arg(top.join("scripts/erase")).arg(&made).output() {
        Ok(ran) if ran.status.success() => {}
        Ok(ran) => stop(&format!("scripts/erase failed: {}", String::from_utf8_lossy(&ran.stderr).trim())),
        Err(error) => stop(&format!("`{python}`, which runs scripts/erase, cannot be run: {error}.")),
    }
}
