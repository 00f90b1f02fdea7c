//! Links the static library that `sh tools/staticlib` writes.

use std::env;
use std::path::PathBuf;

/// Another folder than the repository's own can be named by this variable.
const FOLDER: &str = "CULVERTJIG_STATICLIB";

fn main() {
    let own = concat!(env!("CARGO_MANIFEST_DIR"), "/../../target/staticlib");
    let folder = env::var_os(FOLDER).map_or(own.into(), PathBuf::from);
    let archive = folder.join("libculvertjig.a");
    println!("cargo:rerun-if-env-changed={FOLDER}");
    println!("cargo:rerun-if-changed={}", archive.display());
    if !archive.is_file() {
        let missing = archive.display();
        println!("cargo:warning={missing} is not there: `sh tools/staticlib` writes it");
        std::process::exit(1);
    }
    println!("cargo:rustc-link-search=native={}", folder.display());
    println!("cargo:rustc-link-lib=static=culvertjig");
}
