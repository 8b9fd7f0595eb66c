//! Stands in for machine.rs: `Cx`, `Peripheral`, `Trigger` and `Event` with the names and meanings that
//! timer.rs and irqflags.rs use. It records what a peripheral tells the machine and does nothing else.

mod peripheral;

use std::collections::VecDeque;

use crate::scheduler::{EventKey, Scheduler};
pub use peripheral::{Override, Peripheral, Trigger};

/// Addresses that the flag and mask bytes of the one timer have in `Cpu::data`.
pub const TIFR: u16 = 0;
pub const TIMSK: u16 = 1;

/// Interrupt vectors 1 to 5; 0 is what the Rust takes for a source that the timer lacks.
pub const VECTORS: usize = 6;

/// 01 allows pins 0 to 247.
pub const PINS: usize = 248;

#[derive(Clone)]
pub struct Cpu {
    pub data: [u8; 2],
    pub cycles: u64,
    pub lines: [bool; VECTORS],
    /// How often a request line was set, be it to what it was.
    pub requests: u32,
}

impl Cpu {
    pub fn set_irq(&mut self, vector: u8, on: bool) {
        self.lines[vector as usize] = on;
        self.requests += 1;
    }
}

/// What a peripheral told the machine, in its order. A pin event bears the override, not the level.
#[derive(Clone, Copy, Debug, PartialEq, Eq)]
pub enum Event {
    Pin { pin: usize, enable: u8, value: u8, cycle: u64 },
    Trigger { trigger: Trigger, value: u8, cycle: u64 },
    RegWritten(u16),
}

#[derive(Clone)]
pub struct Sys {
    pub sched: Scheduler,
    pub pins: [Override; PINS],
    pub events: VecDeque<Event>,
}

impl Sys {
    pub fn update_pin(&mut self, pin: usize, cycle: u64) {
        let Override { ov_enable: enable, ov_value: value } = self.pins[pin];
        self.events.push_back(Event::Pin { pin, enable, value, cycle });
    }

    pub fn trigger(&mut self, trigger: Trigger, value: u8, cycle: u64) {
        self.events.push_back(Event::Trigger { trigger, value, cycle });
    }
}

pub struct Cx<'a> {
    pub cpu: &'a mut Cpu,
    pub sys: &'a mut Sys,
    pub me: u8,
}

impl Cx<'_> {
    pub fn now(&self) -> u64 {
        self.cpu.cycles
    }

    pub fn schedule(&mut self, tag: u8, cycle: u64) {
        self.sys.sched.at(EventKey { owner: self.me, tag }, cycle);
    }

    pub fn cancel(&mut self, tag: u8) {
        self.sys.sched.cancel(EventKey { owner: self.me, tag });
    }
}
