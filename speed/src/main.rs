//! `speed`: the timer beside the Rust, one driver and one build for both. Nanoseconds by the clock; instructions by
//! callgrind, as the difference of two runs: `speed run ROW SIDE STEPS`, `speed grow SELECT POWER STEPS` and
//! `speed watch P TIMEOUTS STEPS`, `speed board ROW SIDE STEPS`, `speed single CALL STEPS`. `speed watchdog` measures the watchdog alone, `speed board` the
//! board, `speed single` each other call by itself.

mod boards;
mod callgrind;
mod growth;
mod sides;
mod singles;
mod table;
mod watchdogs;
mod work;

use sides::{Ours, Side, Theirs};
use work::WORKS;

fn main() {
    let arguments: Vec<String> = std::env::args().skip(1).collect();
    match arguments.iter().map(String::as_str).collect::<Vec<_>>()[..] {
        [] => {
            table::print();
            growth::print();
            watchdogs::print();
            boards::print();
            singles::print();
        }
        ["run", row, side, steps] => println!("{}", row_of(number(row) as usize, side, number(steps))),
        ["grow", select, power, steps] => {
            println!("{}", growth::run(number(select) as u8, number(power) as u32, number(steps)));
        }
        ["watch", p, timeouts, steps] => {
            println!("{}", watchdogs::run(number(p) as u8, number(timeouts), number(steps)));
        }
        ["watchdog"] => watchdogs::print(),
        ["board", row, side, steps] => println!("{}", boards::run(row, side, number(steps)).unwrap_or_else(|| usage())),
        ["board"] => boards::print(),
        ["single", place, steps] => {
            println!("{}", singles::run(number(place) as usize, number(steps)).unwrap_or_else(|| usage()))
        }
        ["single"] => singles::print(),
        _ => usage(),
    }
}

fn row_of(row: usize, side: &str, steps: u64) -> u64 {
    let work = WORKS.get(row).unwrap_or_else(|| usage());
    match side {
        Ours::NAME => work::run(&mut work::ready::<Ours>(work), work.step, steps),
        Theirs::NAME => work::run(&mut work::ready::<Theirs>(work), work.step, steps),
        _ => usage(),
    }
}

fn number(word: &str) -> u64 {
    word.parse().unwrap_or_else(|_| usage())
}

fn usage() -> ! {
    eprintln!(
        "usage: speed | speed run ROW {}|{} STEPS | speed grow SELECT POWER STEPS | speed watchdog | speed board | speed single",
        Ours::NAME,
        Theirs::NAME
    );
    std::process::exit(2)
}
