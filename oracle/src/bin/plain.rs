//! `plain [--bend NAME]`: answers a script on standard input by the plain counter. `plain --bends` lists the
//! ways to bend it.

use std::{env, io, process};

use oracle::plain::bends::Bend;
use oracle::plain::Plain;
use oracle::script::play;

fn main() -> io::Result<()> {
    let arguments: Vec<String> = env::args().skip(1).collect();
    let bend = match arguments.iter().map(String::as_str).collect::<Vec<_>>()[..] {
        [] => None,
        ["--bend", name] => Some(Bend::named(name).unwrap_or_else(|| usage())),
        ["--bends"] => {
            Bend::all().for_each(|b| println!("{}: {}", b.name(), b.what()));
            return Ok(());
        }
        _ => usage(),
    };
    play::serve(Plain::new(bend))
}

fn usage() -> ! {
    eprintln!("usage: plain [--bends | --bend NAME] < SCRIPT");
    process::exit(2)
}
