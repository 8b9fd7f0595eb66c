//! `compare CALLS SEED [BEND]`: judge against plain counter, or against one bent, to see a disagreement.
//! `compare --program PATH CALLS SEED`: judge against a bench program. `compare --watchdog PATH CALLS SEED`: the plain
//! watchdog against one. `compare --board PATH CALLS SEED`: the board of the Rust, and the plain board, against one. `compare --cover SCRIPT`: what does it reach?
//! `compare --bends SEED`: is it sharp? `compare --sources MCS`: was the Rust compiled that lies there?

use std::path::Path;
use std::{env, fs, process};

use oracle::compare::program::{self, Program};
use oracle::compare::{self, bends, board, cover, watchdog};
use oracle::plain::bends::Bend;

fn main() {
    let arguments: Vec<String> = env::args().skip(1).collect();
    let result = match arguments.iter().map(String::as_str).collect::<Vec<_>>()[..] {
        ["--bends", seed] => bends::run(number(seed)),
        ["--cover", script] => cover::run(Path::new(script)),
        ["--program", path, calls, seed, ref words @ ..] => against_program(path, words, calls, seed),
        ["--watchdog", path, calls, seed] => against_watchdog(path, calls, seed),
        ["--board", path, calls, seed] => against_board(path, calls, seed),
        ["--sources", checkout] => sources(Path::new(checkout)),
        [calls, seed] => against(calls, seed, None),
        [calls, seed, name] => against(calls, seed, Some(Bend::named(name).unwrap_or_else(|| usage()))),
        _ => usage(),
    };
    if let Err(why) = result {
        eprintln!("oracle: {why}");
        process::exit(1);
    }
}

fn against(calls: &str, seed: &str, bend: Option<Bend>) -> Result<(), String> {
    compare::run(number(calls) as usize, number(seed), bend).map(|figures| println!("{figures}"))
}

fn against_program(path: &str, words: &[&str], calls: &str, seed: &str) -> Result<(), String> {
    program::run(&Program::new(path, words)?, number(calls) as usize, number(seed))
}

fn against_watchdog(path: &str, calls: &str, seed: &str) -> Result<(), String> {
    watchdog::run(&Program::new(path, &[])?, number(calls) as usize, number(seed))
}

fn against_board(path: &str, calls: &str, seed: &str) -> Result<(), String> {
    board::run(&Program::new(path, &[])?, number(calls) as usize, number(seed))
}

fn number(word: &str) -> u64 {
    word.parse().unwrap_or_else(|_| usage())
}

fn usage() -> ! {
    eprintln!("usage: compare CALLS SEED [BEND] | compare --program PATH CALLS SEED [ARGUMENT...]");
    eprintln!("       compare --watchdog PATH CALLS SEED | compare --board PATH CALLS SEED | compare --cover SCRIPT | compare --bends SEED | compare --sources MCS");
    process::exit(2)
}

/// Compares what was compiled with the checkout, byte for byte.
fn sources(checkout: &Path) -> Result<(), String> {
    for (name, own, compiled) in mcs::SOURCES {
        let path = checkout.join("crates/mcs-sim/src").join(name);
        let bytes = fs::read(&path).map_err(|e| format!("cannot read {}: {e}", path.display()))?;
        if compiled[..own] != bytes[..] {
            return Err(format!("{} is not what was compiled: build again", path.display()));
        }
        println!("{name}: {own} bytes compiled unchanged, {} of the oracle appended", compiled.len() - own);
    }
    Ok(())
}
