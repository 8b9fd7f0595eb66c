//! Stands in for machine.rs, as lean as timer.rs lets it be.

#[path = "../../../oracle/mcs/src/machine/peripheral.rs"]
mod peripheral;

pub use peripheral::{Override, Peripheral, Trigger};

/// Addresses that the flag and mask bytes of the one timer have in `Cpu::data`.
pub const TIFR: u16 = 0;
pub const TIMSK: u16 = 1;

/// The bytes of the area.
pub const AREA: usize = 4096;

const RECORD: usize = 10;

pub struct Cpu {
    pub data: [u8; 2],
    pub cycles: u64,
    /// The request lines of the vectors 1 to 5: bits 0 to 4.
    pub lines: u8,
}

impl Cpu {
    pub fn set_irq(&mut self, vector: u8, on: bool) {
        let bit = 1 << vector >> 1;
        self.lines = if on { self.lines | bit } else { self.lines & !bit };
    }
}

#[derive(Clone, Copy, Debug, PartialEq, Eq)]
pub enum Event {
    RegWritten(u16),
}

/// `at` is where the next record goes; an area that is full is begun again. `flags` is where the flag record of the tick
/// at the cycle `ticked` lies.
pub struct Sys {
    pub pins: [Override; 248],
    pub events: std::collections::VecDeque<Event>,
    pub area: [u8; AREA],
    pub at: usize,
    flags: usize,
    ticked: u64,
}

impl Default for Sys {
    fn default() -> Self {
        let events = std::collections::VecDeque::new();
        Self { pins: [Override::default(); 248], events, area: [0; AREA], at: 0, flags: 0, ticked: u64::MAX }
    }
}

impl Sys {
    pub fn update_pin(&mut self, pin: usize, cycle: u64) {
        let Override { ov_enable, ov_value } = self.pins[pin];
        self.record(0, cycle, pin as u8, ov_enable << 7 | ov_value << 6);
    }

    /// The tick's first trigger writes its flag record too; each adds its bit there. The request lines are 0, as TIMSK is.
    pub fn trigger(&mut self, trigger: Trigger, _value: u8, cycle: u64) {
        let (kind, flag, id) = match trigger {
            Trigger::TimerCompA(id) => (1, 2, id),
            Trigger::TimerCompB(id) => (2, 4, id),
            Trigger::TimerOvf(id) => (3, 1, id),
            Trigger::TimerCapt(id) => (4, 0x20, id),
            _ => return,
        };
        if cycle != self.ticked {
            self.ticked = cycle;
            self.flags = self.record(1, cycle, 0, 0);
        }
        self.area[self.flags + 8] |= flag;
        self.record(2, cycle, kind << 4 | id >> 4, id << 4);
    }

    /// Writes ten bytes; yields where.
    fn record(&mut self, kind: u64, cycle: u64, high: u8, low: u8) -> usize {
        if self.at + RECORD > AREA {
            self.at = 0;
        }
        let at = self.at;
        let to = &mut self.area[at..at + RECORD];
        to[..8].copy_from_slice(&(kind << 62 | cycle).to_be_bytes());
        to[8] = high;
        to[9] = low;
        self.at = at + RECORD;
        at
    }
}

/// `next` is the cycle last scheduled.
pub struct Cx<'a> {
    pub cpu: &'a mut Cpu,
    pub sys: &'a mut Sys,
    pub next: &'a mut u64,
}

impl Cx<'_> {
    pub fn now(&self) -> u64 {
        self.cpu.cycles
    }

    pub fn schedule(&mut self, _tag: u8, cycle: u64) {
        *self.next = cycle;
    }

    pub fn cancel(&mut self, _tag: u8) {
        *self.next = u64::MAX;
    }
}
