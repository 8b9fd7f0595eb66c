//! The workloads, timed and counted.

use std::time::Instant;

use crate::callgrind;
use crate::sides::{Ours, Side, Theirs};
use crate::work::{ready, run, Work, WORKS};

/// How often a row is timed; the best counts.
const ROUNDS: usize = 7;

/// Roughly how long one timing takes, in nanoseconds.
const LONG: f64 = 5e7;

pub fn print() {
    println!("Instructions and nanoseconds a unit; an area of 4,096 bytes on both sides, cleared on neither.");
    println!();
    println!("| workload | unit | ours: instructions | Rust | ratio | ours: ns | Rust | ratio |");
    println!("|---|---|---|---|---|---|---|---|");
    for (row, work) in WORKS.iter().enumerate() {
        agree(work);
        let units = work.step.units() as f64;
        let [oi, ri] = [Ours::NAME, Theirs::NAME].map(|side| counted(row, side) / units);
        let [on, rn] = [timed::<Ours>(work), timed::<Theirs>(work)].map(|ns| ns / units);
        println!(
            "| {} | {} | {oi:.0} | {ri:.0} | {:.2} | {on:.1} | {rn:.1} | {:.2} |",
            work.name,
            work.unit,
            oi / ri,
            on / rn
        );
    }
    println!();
    WORKS.iter().for_each(|work| println!("- {}: {}.", work.name, work.what));
}

/// Instructions of one step.
fn counted(row: usize, side: &str) -> f64 {
    callgrind::a_step(|steps| ["run".into(), row.to_string(), side.into(), steps.to_string()], 2000)
}

/// Both sides must yield the same sums and leave the same bytes.
fn agree(work: &Work) {
    let (mut ours, mut theirs) = (ready::<Ours>(work), ready::<Theirs>(work));
    let sums = [run(&mut ours, work.step, 1000), run(&mut theirs, work.step, 1000)];
    assert_eq!(sums[0], sums[1], "{}: the sides yield other sums", work.name);
    assert!(ours.area() == theirs.area(), "{}: the sides leave other bytes", work.name);
}

/// Nanoseconds of one step, the best of some rounds.
fn timed<S: Side>(work: &Work) -> f64 {
    let steps = (LONG / once::<S>(work, 2000)).max(1.0) as u64;
    (0..ROUNDS).map(|_| once::<S>(work, steps)).fold(f64::INFINITY, f64::min)
}

fn once<S: Side>(work: &Work, steps: u64) -> f64 {
    let mut side = ready::<S>(work);
    let start = Instant::now();
    std::hint::black_box(run(&mut side, work.step, steps));
    start.elapsed().as_nanos() as f64 / steps as f64
}
