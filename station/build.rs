//! Links the archive of the crate `station`.

use std::path::Path;
use std::{env, process};

const VARIABLE: &str = "STATION_LIB";
const DEFAULT_FOLDER: &str = "../target/staticlib";
const ARCHIVE: &str = "libstation.a";

fn main() {
    println!("cargo::rerun-if-env-changed={VARIABLE}");
    let folder = env::var(VARIABLE).unwrap_or_else(|_| DEFAULT_FOLDER.to_string());
    let Ok(archive) = Path::new(&folder).join(ARCHIVE).canonicalize() else {
        println!(
            "cargo::error={ARCHIVE} not found in folder {folder}: run `./sheet --help` at the \
             repository's top, or `rt lib` in crates/station and set {VARIABLE} to the folder \
             that holds it"
        );
        process::exit(1);
    };
    let folder = archive.parent().expect("a file has a folder");
    println!("cargo::rerun-if-changed={}", archive.display());
    println!("cargo::rustc-link-search=native={}", folder.display());
    println!("cargo::rustc-link-lib=static=station");
    // The tests read the archive's symbols and link it to a C program.
    println!("cargo::rustc-env=STATION_ARCHIVE={}", archive.display());
}
