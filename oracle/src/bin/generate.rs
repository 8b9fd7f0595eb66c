//! `generate SEED CALLS`: a random script on standard output; `generate --board SEED CALLS`: one of `board` lines.

use std::io::{self, Write};

use oracle::generate;

fn main() -> io::Result<()> {
    let mut arguments: Vec<String> = std::env::args().skip(1).collect();
    let script = match arguments.first().is_some_and(|a| a == "--board") {
        true => generate::board::script,
        false => generate::script,
    };
    arguments.retain(|a| a != "--board");
    let numbers: Vec<u64> = arguments.iter().filter_map(|a| a.parse().ok()).collect();
    let [seed, calls] = numbers[..] else {
        eprintln!("usage: generate [--board] SEED CALLS");
        std::process::exit(2)
    };
    let mut out = io::BufWriter::new(io::stdout().lock());
    for line in script(seed, calls as usize) {
        writeln!(out, "{line}")?;
    }
    out.flush()
}
