//! Links `libshell.a` and `libdoorlog.a` of the repository's `target/staticlib`, or of the folder that PADDLEMAUVE names.

use std::path::PathBuf;
use std::{env, process};

fn main() {
    println!("cargo:rerun-if-env-changed=PADDLEMAUVE");
    let here = env::var("CARGO_MANIFEST_DIR").expect("cargo sets CARGO_MANIFEST_DIR");
    let folder = env::var_os("PADDLEMAUVE")
        .map(PathBuf::from)
        .unwrap_or_else(|| PathBuf::from(here).join("../../target/staticlib"));
    println!("cargo:rustc-link-search=native={}", folder.display());
    for name in ["shell", "doorlog"] {
        let archive = folder.join(format!("lib{name}.a"));
        println!("cargo:rerun-if-changed={}", archive.display());
        if !archive.is_file() {
            eprintln!("paddlemauve: there is no {}: run `make library` in the repository", archive.display());
            process::exit(1);
        }
        println!("cargo:rustc-link-lib=static={name}");
    }
}
