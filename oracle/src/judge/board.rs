//! The board by the unchanged Rust: three of its timers, its GTCCR and its scheduler, behind the refusals that 02 (2.6) adds.

use std::collections::VecDeque;

use mcs::irqflags::{Gtccr, GtccrConfig};
use mcs::machine::{Cpu, Cx, Event, Override, Peripheral, Sys, Trigger, PINS, VECTORS};
use mcs::scheduler::{EventKey, Scheduler};

use super::{Follow, Judge, View};
use crate::script::{Answer, Areas, BoardState, Call, Config, Order, Side, Told};

/// GTCCR's data address, and where the Rust keeps it here.
const GTCCR: u16 = 0x43;
const PLACE: u16 = 0;

#[derive(Clone)]
pub struct Board {
    timers: [Judge; 3],
    cpu: Cpu,
    scheduler: Scheduler,
}

/// The event of a timer.
fn key(timer: usize) -> EventKey {
    EventKey { owner: timer as u8, tag: 0 }
}

/// The same answer without a mark that the Rust's differs.
fn plain(answer: &Answer) -> &Answer {
    match answer {
        Answer::Differs(answer) => plain(answer),
        _ => answer,
    }
}

impl Board {
    pub fn new(follow: Follow) -> Self {
        let timer = |name: &str| {
            let mut judge = Judge::new(follow).counting();
            judge.configure(&Config::read_preset(&[name]).expect("a preset"));
            judge
        };
        Self {
            timers: ["m328p.timer0", "m328p.timer1", "m328p.timer2"].map(timer),
            cpu: Cpu { data: [0; 2], cycles: 0, lines: [false; VECTORS], requests: 0 },
            scheduler: Scheduler::new(),
        }
    }

    pub fn gtccr(&self) -> u8 {
        self.cpu.data[PLACE as usize]
    }

    pub fn view(&self, timer: usize) -> View<'_> {
        self.timers[timer].view().expect("a timer of the board")
    }

    /// How many ticks of a timer lie between its sync cycle and `cycle`.
    pub fn ticks_to(&self, timer: usize, cycle: u64) -> u64 {
        self.timers[timer].ticks_to(cycle)
    }

    pub fn order(&mut self, order: Order, cycle: u64, areas: &mut Areas) -> Told {
        let own = match order {
            Order::Advance(timer) => Some((timer, Call::Advance)),
            Order::Next(timer) => Some((timer, Call::Next)),
            Order::Reset(timer) => Some((timer, Call::Reset)),
            Order::Edge { timer, pin, level } => Some((timer, Call::Edge { pin, level })),
            Order::Route(timer, level) => Some((timer, Call::Route(level))),
            Order::AcOut(timer, level) => Some((timer, Call::AcOut(level))),
            Order::Tifr(timer) => Some((timer, Call::Tifr)),
            Order::Timsk(timer) => Some((timer, Call::Timsk)),
            Order::WriteTifr(timer, value) => Some((timer, Call::WriteTifr(value))),
            Order::WriteTimsk(timer, value) => Some((timer, Call::WriteTimsk(value))),
            Order::Sleep(mode) => return self.all(&[Call::Sleep(mode)], cycle, areas),
            Order::Wake => return self.all(&[Call::Wake], cycle, areas),
            Order::Prr(value) => return self.all(&[Call::Prr(value as u16)], cycle, areas),
            Order::Write(GTCCR, value) => return self.write_gtccr(value, cycle, areas),
            Order::Read(GTCCR) | Order::Peek(GTCCR) => {
                return self.told(Answer::Done { value: Some(self.gtccr()), next: None, bytes: 0 }, [0; 3])
            }
            Order::Read(address) => self.by_address(address, Call::Read(address), Call::Tifr, Call::Timsk),
            Order::Peek(address) => self.by_address(address, Call::Peek(address), Call::Tifr, Call::Timsk),
            Order::Write(address, value) => {
                self.by_address(address, Call::Write(address, value), Call::WriteTifr(value), Call::WriteTimsk(value))
            }
        };
        own.map_or(Told::refused(16), |(timer, call)| self.one(timer, call, cycle, areas))
    }

    /// The sheet's TIFRn and TIMSKn; else the timer among whose registers the Rust has the address.
    fn by_address(&self, address: u16, register: Call, tifr: Call, timsk: Call) -> Option<(usize, Call)> {
        match address {
            0x35..=0x37 => return Some((address as usize - 0x35, tifr)),
            0x6e..=0x70 => return Some((address as usize - 0x6e, timsk)),
            _ => {}
        }
        (0..3).find(|&timer| self.timers[timer].owns(address)).map(|timer| (timer, register))
    }

    fn one(&mut self, timer: usize, call: Call, cycle: u64, areas: &mut Areas) -> Told {
        let answer = self.timers[timer].call(call, cycle, &mut areas[timer]);
        let mut bytes = [0; 3];
        bytes[timer] = answer.bytes();
        match plain(&answer) {
            Answer::Refused(number) => Told::refused(*number),
            _ => self.told(answer, bytes),
        }
    }

    /// Asks all three on a copy, which is kept where none refuses.
    fn all(&mut self, calls: &[Call], cycle: u64, areas: &mut Areas) -> Told {
        let mut after = self.timers.clone();
        let mut lowest = None;
        let mut differs = false;
        for (timer, area) in after.iter_mut().zip(areas) {
            for &call in calls {
                let answer = timer.call(call, cycle, area);
                differs |= matches!(answer, Answer::Differs(_));
                if let Answer::Refused(number) = *plain(&answer) {
                    lowest = Some(lowest.map_or(number, |least: u8| least.min(number)));
                    break;
                }
            }
        }
        if let Some(number) = lowest {
            return Told::refused(number);
        }
        self.timers = after;
        let done = Answer::Done { value: None, next: None, bytes: 0 };
        self.told(if differs { Answer::Differs(Box::new(done)) } else { done }, [0; 3])
    }

    /// What the Rust's GTCCR tells the timers. A write that resets no prescaler is told too: it reaches all three (02).
    fn write_gtccr(&mut self, value: u8, cycle: u64, areas: &mut Areas) -> Told {
        let psr = vec![(1, 1), (2, 2)];
        let mut gtccr = Gtccr::new(GtccrConfig { addr: PLACE, tsm: 0x80, psr, strobes: 0, config: 0 });
        let mut cpu = Cpu { cycles: cycle, ..self.cpu.clone() };
        let mut sys = Sys { sched: Scheduler::new(), pins: [Override::default(); PINS], events: VecDeque::new() };
        gtccr.write(PLACE, value, &mut Cx { cpu: &mut cpu, sys: &mut sys, me: 0 });
        let mut calls: Vec<Call> = sys.events.iter().map(told_by_gtccr).collect();
        if !calls.iter().any(|call| matches!(call, Call::Presc(_))) {
            calls.push(Call::Presc(0));
        }
        let told = self.all(&calls, cycle, areas);
        if !matches!(told.answer, Answer::Refused(_)) {
            self.cpu = cpu;
        }
        told
    }

    /// An accepted order: each timer's next event goes to the Rust's scheduler, under the timer's id.
    fn told(&mut self, answer: Answer, bytes: [usize; 3]) -> Told {
        let next = [0, 1, 2].map(|timer| self.timers[timer].announced());
        for (timer, event) in next.iter().enumerate() {
            match event {
                Some(event) => self.scheduler.at(key(timer), event.cycle),
                None => self.scheduler.cancel(key(timer)),
            }
        }
        Told { answer, next, bytes }
    }

    pub fn state(&self) -> BoardState {
        let timers = [0, 1, 2].map(|timer| self.timers[timer].state().expect("a timer of the board"));
        BoardState {
            gtccr: self.gtccr(),
            sched: [0, 1, 2].map(|timer| self.scheduler.is_scheduled(key(timer))),
            timers,
        }
    }
}

/// A trigger as the timers take it.
fn told_by_gtccr(event: &Event) -> Call {
    match *event {
        Event::Trigger { trigger: Trigger::TimerSync, value, .. } => Call::Tsm(value),
        Event::Trigger { trigger: Trigger::PrescalerReset, value, .. } => Call::Presc(value),
        _ => panic!("{event:?} is not told by GTCCR"),
    }
}
