//! The Rust's timer with its surroundings: one step of it, what it told meanwhile, and its state.

use std::collections::VecDeque;

use mcs::machine::{Cpu, Cx, Event, Override, Sys, PINS, TIFR, TIMSK, VECTORS};
use mcs::scheduler::{EventKey, Scheduler};
use mcs::timer::{Timer, EVENT};

use super::{advance, records, setup, Follow};
use crate::script::{self, Call, Config, Distance, State};

/// The timer is the only peripheral.
const ME: u8 = 0;

#[derive(Clone)]
pub struct Bench {
    pub timer: Timer,
    pub cpu: Cpu,
    pub sys: Sys,
}

/// What a call yielded; an advance that stopped says where.
pub struct Worked {
    pub value: Option<u8>,
    pub bytes: Vec<u8>,
    pub paused: Option<u64>,
}

/// One step of the Rust: a call, or one event of an advance.
pub struct Step {
    pub value: Option<u8>,
    pub bytes: Vec<u8>,
    pub events: Vec<Event>,
}

impl Bench {
    pub fn new(config: &Config) -> Self {
        Self {
            timer: Timer::new(setup::timer_config(config)),
            cpu: Cpu { data: [0; 2], cycles: 0, lines: [false; VECTORS], requests: 0 },
            sys: Sys { sched: Scheduler::new(), pins: [Override::default(); PINS], events: VecDeque::new() },
        }
    }

    pub fn with<R>(&mut self, cycle: u64, work: impl FnOnce(&mut Timer, &mut Cx) -> R) -> R {
        self.cpu.cycles = cycle;
        work(&mut self.timer, &mut Cx { cpu: &mut self.cpu, sys: &mut self.sys, me: ME })
    }

    /// The event that `schedule` computes from the state.
    pub fn next_event(&self) -> Option<u64> {
        let mut copy = self.clone();
        copy.with(self.cpu.cycles, |timer, cx| timer.reschedule(cx));
        copy.held_event()
    }

    /// That event with the flags that its tick raises, which the Rust does not say: it works the tick on a copy with a
    /// cleared TIFR, upwards in N, C and F, so that an answer never differs from the sheet's in its flags alone.
    pub fn announced(&self) -> Option<script::Event> {
        let cycle = self.next_event()?;
        let mut copy = self.clone();
        copy.cpu.data[TIFR as usize] = 0;
        if copy.timer.skips_down() {
            copy.timer.turn(1);
        }
        copy.call(Call::Advance, cycle, Follow::Rust);
        Some(script::Event { cycle, flags: copy.cpu.data[TIFR as usize] })
    }

    /// The event that the Rust's scheduler holds.
    fn held_event(&self) -> Option<u64> {
        self.sys.sched.is_scheduled(EventKey { owner: ME, tag: EVENT })
    }

    /// Works a call. Where the sheet is followed in N, C and F, the direction is turned up for as long as
    /// the call counts: nothing else reads it there, and it survives.
    pub fn worked(&mut self, call: Call, cycle: u64, room: usize, follow: Follow, checked: bool) -> Worked {
        let down = follow == Follow::Sheet && self.timer.skips_down();
        if down {
            self.timer.turn(1);
        }
        let worked = match call {
            Call::Advance => advance::advance(self, cycle, room, checked),
            _ => {
                let step = self.step(|bench| bench.call(call, cycle, follow));
                Worked { value: step.value, bytes: step.bytes, paused: None }
            }
        };
        if down && call != Call::Reset {
            self.timer.turn(-1);
            if !self.timer.skips_down() {
                self.with(cycle, |timer, cx| timer.reschedule(cx));
            }
        }
        if checked {
            assert_eq!(
                self.held_event(),
                self.next_event(),
                "the event held is not the one that `schedule` computes, after {call:?} at {cycle}"
            );
        }
        worked
    }

    /// Runs the Rust once and writes down what it told the machine.
    pub fn step(&mut self, work: impl Fn(&mut Bench) -> Option<u8>) -> Step {
        let before = self.clone();
        let value = work(self);
        let events: Vec<Event> = self.sys.events.drain(..).collect();
        let raised = if self.cpu.requests == before.cpu.requests { 0 } else { self.raised(before, &events, work) };
        let bytes = records::bytes(&events, raised, self.lines(), self.cpu.cycles);
        Step { value, bytes, events }
    }

    /// The flags that a step raised, those already set too: the same step worked on a cleared TIFR.
    fn raised(&self, mut before: Bench, events: &[Event], work: impl Fn(&mut Bench) -> Option<u8>) -> u8 {
        let held = before.cpu.data[TIFR as usize];
        before.cpu.data[TIFR as usize] = 0;
        work(&mut before);
        let raised = before.cpu.data[TIFR as usize];
        assert_eq!(before.timer.inside(), self.timer.inside(), "the flags held changed the timer's work");
        assert!(before.sys.events.iter().eq(events), "the flags held changed what the timer told");
        assert!(raised == 0 || self.cpu.data[TIFR as usize] == held | raised, "flags were lost");
        raised
    }

    /// The request lines: overflow, A, B, capture, C.
    fn lines(&self) -> [bool; 5] {
        [1, 2, 3, 4, 5].map(|vector| self.cpu.lines[vector])
    }

    /// What the Rust's `distance` computes from the state. It says no flags, and looks at every channel: the compares that stop a search
    /// are told here.
    pub fn distance(&self, config: &Config, flags: u8) -> Distance {
        let t = self.timer.inside();
        let compares: Vec<u32> = (0..3).filter(|&ch| present(config)[ch]).map(|ch| t.ocr[ch]).collect();
        let first = compares.iter().position(|&o| o == t.tcnt);
        Distance { ticks: self.timer.ticks_ahead(), flags, looked: first.map_or(compares.len(), |i| i + 1) as u8 }
    }

    pub fn state(&self, config: &Config, latest: u64) -> State {
        let t = self.timer.inside();
        let present = present(config);
        let shown = |values: [u32; 3]| [0, 1, 2].map(|ch| present[ch].then_some(values[ch]));
        let drive = |pin: u8| (self.sys.pins[pin as usize].ov_enable, self.sys.pins[pin as usize].ov_value);
        State {
            count: t.tcnt,
            dir: t.dir,
            ocr: shown(t.ocr),
            buf: shown(t.ocr_buf),
            icr: t.icr,
            temp: t.temp,
            oc: t.oc,
            drive: [config.pina, config.pinb, config.c.and_then(|c| c.pin)].map(|pin| pin.map(drive)),
            block: t.block_match,
            tccra: t.tccr_a,
            tccrb: t.tccr_b,
            tifr: self.cpu.data[TIFR as usize],
            timsk: self.cpu.data[TIMSK as usize],
            lines: self.lines(),
            sync: t.last_sync,
            origin: t.ps_base,
            asleep: t.sleep_halted,
            prr: t.power_reduced,
            tsm: t.tsm,
            route: t.ac_capture,
            latest,
            odometer: None,
        }
    }
}

/// The compares that the timer has.
fn present(config: &Config) -> [bool; 3] {
    [config.ocra.is_some(), config.ocrb.is_some(), config.c.is_some()]
}
