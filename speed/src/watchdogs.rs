//! The watchdog by prescaler and time-outs: an advance costs by the time-outs, not by the oscillator's ticks.

use crate::callgrind;
use paddlemauve::{Watchdog, WatchdogAdvanced};

const PRESCALERS: [u8; 3] = [0, 4, 9];

const TIMEOUTS: [u64; 3] = [1, 20, 400];

pub fn print() {
    println!();
    println!("The watchdog, interrupt mode: one advance works so many time-outs.");
    println!();
    println!("| p | ticks a time-out | time-outs an advance | instructions an advance | a time-out |");
    println!("|---|---|---|---|---|");
    for p in PRESCALERS {
        for timeouts in TIMEOUTS {
            row(p, timeouts);
        }
    }
}

fn row(p: u8, timeouts: u64) {
    let steps = 4_000 / timeouts;
    let words = |steps: u64| ["watch".into(), p.to_string(), timeouts.to_string(), steps.to_string()];
    let counted = callgrind::a_step(words, steps);
    println!("| {p} | {} | {timeouts} | {counted:.0} | {:.0} |", 2048 << p, counted / timeouts as f64);
}

/// Works so many advances; yields the bytes written.
pub fn run(p: u8, timeouts: u64, steps: u64) -> usize {
    let mut area = [0; 4096];
    let mut watchdog = Watchdog::new();
    watchdog.write(0x58, 0).expect("the sequence begins");
    watchdog.write(0x40 | (p & 8) * 4 | p & 7, 0).expect("p is at most 9");
    let step = 125 * (2048u64 << p) * timeouts;
    let mut written = 0;
    for k in 1..=steps {
        match watchdog.advance(k * step, &mut area).expect("cycles rise") {
            WatchdogAdvanced::Done { written: bytes, .. } => written += bytes,
            WatchdogAdvanced::Paused { .. } => panic!("4,096 bytes hold the time-outs"),
        }
    }
    assert_eq!(written as u64, 10 * timeouts * steps);
    written
}
