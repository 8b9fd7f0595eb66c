//! A stand-in machine around each of the two timers: the same calls, and what the machine was told.

use std::collections::VecDeque;

use mcs::irqflags::{IrqFlags, IrqFlagsConfig};
use mcs::machine::{Cpu, Cx, Event, Override, Peripheral, Sys, Trigger, PINS, TIFR, TIMSK, VECTORS};
use mcs::scheduler::{EventKey, Scheduler};
use mcs::timer::TimerConfig;
use oracle::script::Call;

use crate::timer as drop_in;

/// The timer is the only peripheral, and has one event.
const ME: u8 = 0;
const EVENT: u8 = 0;

pub struct Machine<T> {
    pub timer: T,
    cpu: Cpu,
    sys: Sys,
}

pub type Theirs = Machine<mcs::timer::Timer>;
pub type Ours = Machine<drop_in::Timer>;

/// Flags and masks, request lines, and the override of every pin.
type Surroundings = ([u8; 2], [bool; VECTORS], Vec<(u8, u8)>);

impl<T> Machine<T> {
    fn around(timer: T) -> Self {
        Self {
            timer,
            cpu: Cpu { data: [0; 2], cycles: 0, lines: [false; VECTORS], requests: 0 },
            sys: Sys { sched: Scheduler::new(), pins: [Override::default(); PINS], events: VecDeque::new() },
        }
    }

    fn with<R>(&mut self, cycle: u64, work: impl FnOnce(&mut T, &mut Cx) -> R) -> R {
        self.cpu.cycles = cycle;
        work(&mut self.timer, &mut Cx { cpu: &mut self.cpu, sys: &mut self.sys, me: ME })
    }

    pub fn held_event(&self) -> Option<u64> {
        self.sys.sched.is_scheduled(EventKey { owner: ME, tag: EVENT })
    }

    /// Pins and triggers since the last time.
    pub fn told(&mut self) -> Vec<Event> {
        self.sys.events.drain(..).collect()
    }

    pub fn surroundings(&self) -> Surroundings {
        (self.cpu.data, self.cpu.lines, self.sys.pins.iter().map(|p| (p.ov_enable, p.ov_value)).collect())
    }
}

impl Theirs {
    pub fn new(c: TimerConfig) -> Self {
        Self::around(mcs::timer::Timer::new(c))
    }

    /// The event that `schedule` computes; a read past an event leaves the old one in the scheduler.
    pub fn next_event(&self) -> Option<u64> {
        let mut copy = Machine { timer: self.timer.clone(), cpu: self.cpu.clone(), sys: self.sys.clone() };
        copy.with(self.cpu.cycles, |timer, cx| timer.reschedule(cx));
        copy.held_event()
    }
}

impl Ours {
    pub fn new(c: TimerConfig) -> Self {
        Self::around(drop_in::Timer::new(drop_in::TimerConfig {
            name: c.name,
            id: c.id,
            wide: c.wide,
            layout: match c.layout {
                mcs::timer::TimerLayout::Split => drop_in::TimerLayout::Split,
                mcs::timer::TimerLayout::Single { wgm } => drop_in::TimerLayout::Single { wgm },
            },
            tccr_a: c.tccr_a,
            tccr_b: c.tccr_b,
            foc_reg: c.foc_reg,
            foc_bits: c.foc_bits,
            tcnt: c.tcnt,
            ocr_a: c.ocr_a,
            ocr_b: c.ocr_b,
            icr: c.icr,
            tifr: c.tifr,
            timsk: c.timsk,
            bits: drop_in::TimerBits { tov: c.bits.tov, ocfa: c.bits.ocfa, ocfb: c.bits.ocfb, icf: c.bits.icf },
            v_ovf: c.v_ovf,
            v_comp_a: c.v_comp_a,
            v_comp_b: c.v_comp_b,
            v_capt: c.v_capt,
            oc_a_gpio: c.oc_a_gpio,
            oc_b_gpio: c.oc_b_gpio,
            c_unit: c.c_unit.map(|u| drop_in::CompareC {
                ocr: u.ocr,
                flag: u.flag,
                vector: u.vector,
                gpio: u.gpio,
                foc: u.foc,
            }),
            icp_gpio: c.icp_gpio,
            t_gpio: c.t_gpio,
            clock: if c.clock == mcs::timer::CS_SYNC { drop_in::CS_SYNC } else { drop_in::CS_TIMER2 },
            prescaler_group: c.prescaler_group,
            prr_mask: c.prr_mask,
            sleep_run: c.sleep_run,
        }))
    }
}

pub trait Side {
    /// A call of the script as the machine makes it.
    fn call(&mut self, call: Call, cycle: u64) -> Option<u8>;

    /// The events that are due by a cycle, each at its own.
    fn events(&mut self, cycle: u64);

    fn inspect(&mut self, cycle: u64) -> Vec<(String, String)>;
}

impl Side for Ours {
    fn call(&mut self, call: Call, cycle: u64) -> Option<u8> {
        let map = self.timer.irq_map();
        self.with(cycle, |timer, cx| peripheral(timer, map, call, cycle, cx))
    }

    fn events(&mut self, cycle: u64) {
        while let Some((_, at)) = self.sys.sched.pop_due(cycle) {
            self.with(at, |timer, cx| timer.on_event(EVENT, at, cx));
        }
    }

    fn inspect(&mut self, cycle: u64) -> Vec<(String, String)> {
        self.with(cycle, |timer, cx| timer.inspect(cx))
    }
}

/// Where timer.rs would skip down in a mode that counts up, which docs/DIFFERENCES.md names, its direction is turned up
/// for as long as it counts.
impl Side for Theirs {
    fn call(&mut self, call: Call, cycle: u64) -> Option<u8> {
        let map = self.timer.irq_map();
        self.turned(cycle, call != Call::Reset, |timer, cx| peripheral(timer, map, call, cycle, cx))
    }

    fn events(&mut self, cycle: u64) {
        while let Some((_, at)) = self.sys.sched.pop_due(cycle) {
            self.turned(at, true, |timer, cx| timer.on_event(EVENT, at, cx));
        }
    }

    fn inspect(&mut self, cycle: u64) -> Vec<(String, String)> {
        // Once synced it counts no more, and shows its own direction.
        self.turned(cycle, true, |timer, cx| timer.inspect(cx));
        self.with(cycle, |timer, cx| timer.inspect(cx))
    }
}

impl Theirs {
    fn turned<R>(&mut self, cycle: u64, back: bool, work: impl FnOnce(&mut mcs::timer::Timer, &mut Cx) -> R) -> R {
        let down = self.timer.skips_down();
        if down {
            self.timer.turn(1);
        }
        let result = self.with(cycle, work);
        if down && back {
            self.timer.turn(-1);
            if !self.timer.skips_down() {
                self.with(cycle, |timer, cx| timer.reschedule(cx));
            }
        }
        result
    }
}

fn peripheral(timer: &mut dyn Peripheral, map: Vec<(u8, u8)>, call: Call, cycle: u64, cx: &mut Cx) -> Option<u8> {
    let mut flags = IrqFlags::new(IrqFlagsConfig { name: "flags", flag_reg: TIFR, mask_reg: TIMSK, map });
    match call {
        Call::Advance => timer.on_event(EVENT, cycle, cx),
        Call::Next => (),
        Call::Reset => timer.reset(cx),
        Call::Wake => timer.on_wake(cx),
        Call::Read(addr) => return Some(timer.read(addr, cx)),
        Call::Peek(addr) => return Some(timer.peek(addr, cx)),
        Call::Write(addr, value) => timer.write(addr, value, cx),
        Call::Tifr => return Some(flags.read(TIFR, cx)),
        Call::Timsk => return Some(flags.read(TIMSK, cx)),
        Call::WriteTifr(value) => flags.write(TIFR, value, cx),
        Call::WriteTimsk(value) => flags.write(TIMSK, value, cx),
        Call::Edge { pin, level } => timer.on_pin(pin, level, cycle, cx),
        Call::Route(level) => timer.on_trigger(Trigger::AcCapture, level, cycle, cx),
        Call::AcOut(level) => timer.on_trigger(Trigger::AcOutput, level, cycle, cx),
        Call::Sleep(mode) => timer.on_sleep(mode, cx),
        Call::Prr(mask) => timer.on_power_reduction(mask, cx),
        Call::Tsm(level) => timer.on_trigger(Trigger::TimerSync, level, cycle, cx),
        Call::Presc(mask) => timer.on_trigger(Trigger::PrescalerReset, mask, cycle, cx),
    }
    None
}
