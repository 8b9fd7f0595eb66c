//! Takes the Rust from the checkout that the variable MCS names. Each file is written, unchanged and
//! with our block of `open/` after it, into the folder of build products, where `src/lib.rs` reads it.

use std::path::{Path, PathBuf};
use std::{env, fs, process};

/// A file of GabePurc/MCS at fb281a0906: where it lies, its length and its FNV-1a checksum, and the
/// block that opens its private state, if it needs one.
struct Source {
    path: &'static str,
    length: usize,
    checksum: u64,
    open: Option<&'static str>,
}

const SOURCES: [Source; 4] = [
    Source { path: "scheduler.rs", length: 2211, checksum: 0x20b125407d86769d, open: Some("scheduler.rs") },
    Source { path: "pins.rs", length: 9127, checksum: 0x4ab50dfe9396c153, open: None },
    Source { path: "avr/peripherals/irqflags.rs", length: 4441, checksum: 0x1789f51aa0587156, open: None },
    Source { path: "avr/peripherals/timer.rs", length: 30334, checksum: 0xaaabaf6470e846e6, open: Some("timer.rs") },
];

fn main() {
    println!("cargo:rerun-if-env-changed=MCS");
    let checkout = env::var("MCS").unwrap_or_default();
    if checkout.is_empty() {
        stop("MCS is not set: name the full path of a checkout of GabePurc/MCS at fb281a0906, as in `make oracle MCS=../MCS`");
    }
    let from = Path::new(&checkout).join("crates/mcs-sim/src");
    let to = PathBuf::from(env::var("OUT_DIR").expect("cargo sets OUT_DIR"));
    let mut tree = String::new();
    let mut bytes = String::new();
    for source in &SOURCES {
        let written = take(source, &from, &to);
        let name = written.file_stem().expect("a file name").to_string_lossy();
        let path = written.to_str().expect("a path in UTF-8");
        tree += &format!("#[path = {path:?}]\npub mod {name};\n");
        bytes += &format!("    ({:?}, {}, include_bytes!({path:?})),\n", source.path, source.length);
    }
    write(&to.join("tree.rs"), tree.as_bytes());
    write(&to.join("bytes.rs"), format!("[\n{bytes}]").as_bytes());
}

/// Checks one file of the checkout and writes it with its block; answers where it now lies.
fn take(source: &Source, from: &Path, to: &Path) -> PathBuf {
    let path = from.join(source.path);
    println!("cargo:rerun-if-changed={}", path.display());
    let mut bytes = read(&path);
    if bytes.len() != source.length || fnv1a(&bytes) != source.checksum {
        stop(&format!("{} is not the file of commit fb281a0906: check out that commit in MCS", path.display()));
    }
    if let Some(open) = source.open {
        let block = Path::new("open").join(open);
        println!("cargo:rerun-if-changed={}", block.display());
        bytes.extend(read(&block));
    }
    let written = to.join(path.file_name().expect("a file name"));
    write(&written, &bytes);
    written
}

fn fnv1a(bytes: &[u8]) -> u64 {
    bytes.iter().fold(0xcbf29ce484222325, |h, &b| (h ^ b as u64).wrapping_mul(0x100000001b3))
}

fn read(path: &Path) -> Vec<u8> {
    fs::read(path).unwrap_or_else(|e| {
        stop(&format!("cannot read {}: {e}; does MCS name a checkout of GabePurc/MCS?", path.display()))
    })
}

fn write(path: &Path, bytes: &[u8]) {
    fs::write(path, bytes).unwrap_or_else(|e| stop(&format!("cannot write {}: {e}", path.display())))
}

fn stop(why: &str) -> ! {
    eprintln!("oracle: {why}");
    process::exit(1)
}
