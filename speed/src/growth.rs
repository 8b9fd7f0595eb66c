//! W5 by divisor and step: the cost goes with the events, not with the ticks.

use std::time::Instant;

use crate::callgrind;
use crate::sides::{Ours, Side, Which};

/// A divisor and its clock select.
const DIVISORS: [(u64, u8); 5] = [(1, 1), (8, 2), (64, 3), (256, 4), (1024, 5)];

const POWERS: [u32; 3] = [26, 33, 40];

/// How often a row is timed; the best counts.
const ROUNDS: usize = 3;

/// More events than these take callgrind minutes.
const COUNTED: u64 = 600_000;

pub fn print() {
    println!();
    println!("W5 by divisor and step: Timer1 normal, OCR1A and OCR1B 0, so two events in 65,536 ticks.");
    println!();
    println!("| divisor | step | ticks a step | events a step | instructions an event | ns an event |");
    println!("|---|---|---|---|---|---|");
    for (divisor, select) in DIVISORS {
        for power in POWERS {
            row(divisor, select, power);
        }
    }
}

fn row(divisor: u64, select: u8, power: u32) {
    let ticks = (1u64 << power) / divisor;
    let events = ticks / 32_768;
    let steps = (20_000 / events).max(1);
    let words = |steps: u64| ["grow".into(), select.to_string(), power.to_string(), steps.to_string()];
    let counted =
        if events > COUNTED { "-".into() } else { format!("{:.0}", callgrind::a_step(words, steps) / events as f64) };
    let ns = (0..ROUNDS).map(|_| once(select, power, steps)).fold(f64::INFINITY, f64::min) / events as f64;
    println!("| {divisor} | 2^{power} | {ticks} | {events} | {counted} | {ns:.1} |");
}

fn once(select: u8, power: u32, steps: u64) -> f64 {
    let start = Instant::now();
    run(select, power, steps);
    start.elapsed().as_nanos() as f64 / steps as f64
}

/// Works so many steps; yields the bytes written.
pub fn run(select: u8, power: u32, steps: u64) -> usize {
    let mut side = Ours::new(Which::Timer1);
    side.write(0x81, select);
    (1..=steps).map(|k| side.advance(k << power)).sum()
}
