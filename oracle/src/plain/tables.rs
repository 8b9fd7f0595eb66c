//! 01's tables of modes and clocks.

use crate::script::ClockTable;

#[derive(Clone, Copy, Debug, PartialEq, Eq)]
pub enum Kind {
    N,
    C,
    F,
    P,
    Q,
}

/// Where TOP comes from.
#[derive(Clone, Copy, Debug, PartialEq, Eq)]
pub enum Top {
    Fixed(u32),
    A,
    I,
}

use Kind::{C, F, N, P, Q};
use Top::{Fixed, A, I};

pub const NARROW: [(Kind, Top); 8] =
    [(N, Fixed(0xff)), (P, Fixed(0xff)), (C, A), (F, Fixed(0xff)), (N, Fixed(0xff)), (P, A), (N, Fixed(0xff)), (F, A)];

pub const WIDE: [(Kind, Top); 16] = [
    (N, Fixed(0xffff)),
    (P, Fixed(0xff)),
    (P, Fixed(0x1ff)),
    (P, Fixed(0x3ff)),
    (C, A),
    (F, Fixed(0xff)),
    (F, Fixed(0x1ff)),
    (F, Fixed(0x3ff)),
    (Q, I),
    (Q, A),
    (P, I),
    (P, A),
    (C, I),
    (N, Fixed(0xffff)),
    (F, I),
    (F, A),
];

#[derive(Clone, Copy, Debug, PartialEq, Eq)]
pub enum Clock {
    Stop,
    Divided(u64),
    Falling,
    Rising,
}

pub fn clock(table: ClockTable, select: u8) -> Clock {
    let divisors = match table {
        ClockTable::Sync => [0, 1, 8, 64, 256, 1024, 0, 0],
        ClockTable::Timer2 => [0, 1, 8, 32, 64, 128, 256, 1024],
    };
    match (table, select) {
        (_, 0) => Clock::Stop,
        (ClockTable::Sync, 6) => Clock::Falling,
        (ClockTable::Sync, 7) => Clock::Rising,
        _ => Clock::Divided(divisors[select as usize]),
    }
}
