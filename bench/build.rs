//! Links the library for C, whose folder the scripts name.

fn main() {
    println!("cargo:rerun-if-env-changed=LIBRARY_FOLDER");
    let folder = std::env::var("LIBRARY_FOLDER").expect("LIBRARY_FOLDER names the folder of libnoddychest.a");
    println!("cargo:rustc-link-search=native={folder}");
    println!("cargo:rustc-link-lib=static=noddychest");
    println!("cargo:rerun-if-changed={folder}/libnoddychest.a");
}
