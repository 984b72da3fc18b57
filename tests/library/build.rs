//! Links the proved library from `target/staticlib` at the repository's root.

use std::path::Path;

/// The crates whose doors the archives have; each archive is named after its crate.
const CRATES: [&str; 3] = ["doors", "bridges", "hatches"];

fn main() {
    let folder = Path::new(env!("CARGO_MANIFEST_DIR")).join("../../target/staticlib");
    println!("cargo:rustc-link-search=native={}", folder.display());
    for name in CRATES {
        let archive = folder.join(format!("lib{name}.a"));
        println!("cargo:rerun-if-changed={}", archive.display());
        if !archive.exists() {
            panic!("\n\nthe proved library is not there: run `bin/build {name}` at the repository's root first\n\n");
        }
        println!("cargo:rustc-link-lib=static={name}");
    }
}
