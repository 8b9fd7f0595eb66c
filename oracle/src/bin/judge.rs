//! `judge [--sheet | --past-7]`: answers a script on standard input by the unchanged Rust.

use std::io;

use oracle::judge::{Follow, Judge};
use oracle::script::play;

fn main() -> io::Result<()> {
    let arguments: Vec<String> = std::env::args().skip(1).collect();
    let judge = match arguments.iter().map(String::as_str).collect::<Vec<_>>()[..] {
        [] => Judge::new(Follow::Rust).counting(),
        ["--sheet"] => Judge::new(Follow::Sheet).counting(),
        ["--past-7"] => {
            // The panics are the answer; the message goes there and not to standard error.
            std::panic::set_hook(Box::new(|_| ()));
            Judge::past_seven()
        }
        _ => {
            eprintln!("usage: judge [--sheet | --past-7] < SCRIPT");
            std::process::exit(2)
        }
    };
    play::serve(judge)
}
