//! The workloads. Each is a setting of the registers and a step, and says how many units a step is.

use std::hint::black_box;

use crate::sides::{Side, Which};

/// One row of the table.
pub struct Work {
    pub name: &'static str,
    pub what: &'static str,
    pub unit: &'static str,
    pub timer: Which,
    pub writes: &'static [(u16, u8)],
    pub step: Step,
}

/// What is done again and again.
#[derive(Clone, Copy)]
pub enum Step {
    /// Advance by so many cycles, in which so many events lie.
    Cycles(u64, u64),
    /// Next event, then advance to it.
    Poll,
    /// Read the count, low and high, every so many cycles; an event that is due first.
    Pair(u64),
    /// Write OCR1B, high and low, every so many cycles; an event that is due first.
    Writes(u64),
    /// Read TIFR and clear a bit of it, every so many cycles; an event that is due first.
    Flags(u64),
}

const SOAK: &[(u16, u8)] = &[(0x47, 100), (0x48, 200), (0x45, 1)];
const DOOR: &[(u16, u8)] = &[(0x47, 64), (0x48, 192), (0x44, 0xb3), (0x45, 1)];
const POLL: &[(u16, u8)] = &[(0x89, 0x3d), (0x88, 0x08), (0x8b, 0xff), (0x8a, 0xff), (0x81, 0x0b)];

pub const WORKS: [Work; 9] = [
    Work {
        name: "W1 soak",
        what: "Timer0 normal, /1, OCR0A 100, OCR0B 200; one advance works 204 events",
        unit: "event",
        timer: Which::Timer0,
        writes: SOAK,
        step: Step::Cycles(68 * 256, 204),
    },
    Work {
        name: "W1 single",
        what: "the same; next event, then advance to it",
        unit: "event",
        timer: Which::Timer0,
        writes: SOAK,
        step: Step::Poll,
    },
    Work {
        name: "W2 door motor",
        what: "Timer0 fast PWM mode 3, /1, COM 2 and 3, OCR 64 and 192; one advance works 120 events",
        unit: "event",
        timer: Which::Timer0,
        writes: DOOR,
        step: Step::Cycles(40 * 256, 120),
    },
    Work {
        name: "W2 single",
        what: "the same; next event, then advance to it",
        unit: "event",
        timer: Which::Timer0,
        writes: DOOR,
        step: Step::Poll,
    },
    Work {
        name: "W3 polling",
        what: "Timer1 CTC 15624, /64; next event, then advance to it",
        unit: "poll",
        timer: Which::Timer1,
        writes: POLL,
        step: Step::Poll,
    },
    Work {
        name: "W4 reads",
        what: "Timer1 /8; TCNT1 low and high every 7 cycles",
        unit: "pair",
        timer: Which::Timer1,
        writes: &[(0x81, 2)],
        step: Step::Pair(7),
    },
    Work {
        name: "W5 long skip",
        what: "Timer1 /1024; steps of 60,000,000 cycles",
        unit: "step",
        timer: Which::Timer1,
        writes: &[(0x81, 5)],
        step: Step::Cycles(60_000_000, 1),
    },
    Work {
        name: "W6 writes",
        what: "Timer1 mode 15, /8; OCR1B high and low every 7 cycles",
        unit: "pair",
        timer: Which::Timer1,
        writes: &[(0x80, 3), (0x81, 0x1a)],
        step: Step::Writes(7),
    },
    Work {
        name: "W7 flags",
        what: "Timer1 /8; TIFR read and a bit cleared every 7 cycles. The Rust has it as a byte of memory",
        unit: "pair",
        timer: Which::Timer1,
        writes: &[(0x81, 2)],
        step: Step::Flags(7),
    },
];

/// A side with the registers of a workload written.
pub fn ready<S: Side>(work: &Work) -> S {
    let mut side = S::new(work.timer);
    for &(address, value) in work.writes {
        side.write(address, value);
    }
    side
}

/// Does so many steps; yields a sum of what they yielded, so that both sides can be compared.
pub fn run<S: Side>(side: &mut S, step: Step, steps: u64) -> u64 {
    let mut sum = 0u64;
    let mut cycle = 0;
    match step {
        Step::Cycles(by, _) => {
            for _ in 0..steps {
                cycle += by;
                sum += side.advance(black_box(cycle)) as u64;
            }
        }
        Step::Poll => {
            for _ in 0..steps {
                cycle = side.next(cycle);
                sum += side.advance(black_box(cycle)) as u64;
            }
        }
        Step::Pair(every) => {
            let mut due = side.next(0);
            for _ in 0..steps {
                cycle += every;
                if due <= cycle {
                    side.advance(cycle);
                    due = side.next(cycle);
                }
                sum += side.read(black_box(0x84), cycle) as u64;
                sum += (side.read(black_box(0x85), cycle) as u64) << 8;
            }
        }
        Step::Writes(every) => {
            let mut due = side.next(0);
            for k in 0..steps {
                cycle += every;
                if due <= cycle {
                    side.advance(cycle);
                    due = side.next(cycle);
                }
                side.write_at(black_box(0x8b), (k >> 8) as u8, cycle);
                side.write_at(black_box(0x8a), k as u8, cycle);
            }
        }
        Step::Flags(every) => {
            let mut due = side.next(0);
            for _ in 0..steps {
                cycle += every;
                if due <= cycle {
                    side.advance(cycle);
                    due = side.next(cycle);
                }
                sum += side.tifr(cycle) as u64;
                side.clear(black_box(2), cycle);
            }
        }
    }
    sum
}

impl Step {
    /// How many units one step is.
    pub fn units(self) -> u64 {
        match self {
            Self::Cycles(_, units) => units,
            Self::Poll | Self::Pair(_) | Self::Writes(_) | Self::Flags(_) => 1,
        }
    }
}
