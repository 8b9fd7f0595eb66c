//! The two timers behind the same few calls: ours through the bindings, the Rust through its own methods.

use lean::machine::{Cpu, Cx, Peripheral, Sys, TIFR, TIMSK};
use lean::timer::{TimerBits, TimerConfig, TimerLayout, CS_SYNC, EVENT};
use paddlemauve::{Answer, Call, Config, Next, Outcome, Timer};

pub const AREA: usize = lean::machine::AREA;

/// A timer of the ATmega328P.
#[derive(Clone, Copy, PartialEq, Eq)]
pub enum Which {
    Timer0,
    Timer1,
}

/// What a workload needs of a timer. Neither side clears its area.
pub trait Side {
    const NAME: &'static str;
    fn new(which: Which) -> Self;
    fn write(&mut self, address: u16, value: u8);
    /// Works all events up to a cycle; yields how many bytes were written.
    fn advance(&mut self, cycle: u64) -> usize;
    fn next(&mut self, cycle: u64) -> u64;
    fn read(&mut self, address: u16, cycle: u64) -> u8;
    fn write_at(&mut self, address: u16, value: u8, cycle: u64);
    fn tifr(&mut self, cycle: u64) -> u8;
    fn clear(&mut self, ones: u8, cycle: u64);
    fn area(&self) -> &[u8; AREA];
}

/// next is the next event's cycle as the last reply told it, none before the first.
pub struct Ours {
    timer: Timer,
    area: [u8; AREA],
    next: Option<u64>,
}

/// Past every cycle where no event is to come.
#[inline]
fn cycle_of(next: Option<Next>) -> u64 {
    next.map_or(u64::MAX, |next| next.cycle)
}

impl Ours {
    #[inline]
    fn call(&mut self, call: Call, cycle: u64) -> (Answer, usize) {
        let Outcome { answer, written, next } = self.timer.call(call, cycle, &mut self.area);
        if let Answer::Refused(why) = answer {
            panic!("{call:?} at {cycle}: {why}");
        }
        self.next = Some(cycle_of(next));
        (answer, written)
    }
}

impl Side for Ours {
    const NAME: &'static str = "ours";

    fn new(which: Which) -> Self {
        let config = if which == Which::Timer0 { Config::M328P_TIMER0 } else { Config::M328P_TIMER1 };
        Self { timer: Timer::new(&config).expect("the preset is accepted"), area: [0; AREA], next: None }
    }

    fn write(&mut self, address: u16, value: u8) {
        self.call(Call::Write(address, value), 0);
    }

    #[inline]
    fn advance(&mut self, cycle: u64) -> usize {
        let mut bytes = 0;
        loop {
            let (answer, written) = self.call(Call::Advance, cycle);
            bytes += written;
            if let Answer::Reached(_) = answer {
                return bytes;
            }
        }
    }

    #[inline]
    fn next(&mut self, cycle: u64) -> u64 {
        match self.next {
            Some(next) => next,
            None => cycle_of(self.timer.next(cycle).expect("no event is due")),
        }
    }

    #[inline]
    fn read(&mut self, address: u16, cycle: u64) -> u8 {
        self.timer.read(address, cycle).expect("no event is due")
    }

    #[inline]
    fn write_at(&mut self, address: u16, value: u8, cycle: u64) {
        self.timer.write(address, value, cycle, &mut self.area).expect("no event is due");
        self.next = None;
    }
    #[inline]
    fn tifr(&mut self, cycle: u64) -> u8 {
        self.timer.tifr(cycle).expect("tifr")
    }
    #[inline]
    fn clear(&mut self, ones: u8, cycle: u64) {
        self.timer.write_tifr(ones, cycle).expect("tifr")
    }
    fn area(&self) -> &[u8; AREA] {
        &self.area
    }
}

pub struct Theirs {
    timer: lean::timer::Timer,
    cpu: Cpu,
    sys: Sys,
    next: u64,
}

impl Theirs {
    #[inline]
    fn with<R>(&mut self, cycle: u64, work: impl FnOnce(&mut lean::timer::Timer, &mut Cx) -> R) -> R {
        self.cpu.cycles = cycle;
        work(&mut self.timer, &mut Cx { cpu: &mut self.cpu, sys: &mut self.sys, next: &mut self.next })
    }
}

impl Side for Theirs {
    const NAME: &'static str = "rust";

    fn new(which: Which) -> Self {
        Self {
            timer: lean::timer::Timer::new(if which == Which::Timer0 { timer0() } else { timer1() }),
            cpu: Cpu { data: [0; 2], cycles: 0, lines: 0 },
            sys: Sys::default(),
            next: u64::MAX,
        }
    }

    fn write(&mut self, address: u16, value: u8) {
        self.with(0, |timer, cx| timer.write(address, value, cx));
    }

    #[inline]
    fn advance(&mut self, cycle: u64) -> usize {
        self.sys.at = 0;
        self.with(cycle, |timer, cx| timer.on_event(EVENT, cycle, cx));
        self.sys.at
    }

    #[inline]
    fn next(&mut self, _cycle: u64) -> u64 {
        self.next
    }

    #[inline]
    fn read(&mut self, address: u16, cycle: u64) -> u8 {
        self.with(cycle, |timer, cx| timer.read(address, cx))
    }

    #[inline]
    fn write_at(&mut self, address: u16, value: u8, cycle: u64) {
        self.with(cycle, |timer, cx| timer.write(address, value, cx));
    }
    #[inline]
    fn tifr(&mut self, _cycle: u64) -> u8 {
        self.cpu.data[0]
    }
    #[inline]
    fn clear(&mut self, ones: u8, _cycle: u64) {
        self.cpu.data[0] &= !ones;
    }
    fn area(&self) -> &[u8; AREA] {
        &self.sys.area
    }
}

fn timer0() -> TimerConfig {
    TimerConfig {
        name: "timer",
        id: 0,
        wide: false,
        layout: TimerLayout::Split,
        tccr_a: 0x44,
        tccr_b: 0x45,
        foc_reg: 0x45,
        foc_bits: (0x80, 0x40),
        tcnt: 0x46,
        ocr_a: Some(0x47),
        ocr_b: Some(0x48),
        icr: None,
        tifr: TIFR,
        timsk: TIMSK,
        bits: TimerBits { tov: 1, ocfa: 2, ocfb: 4, icf: 0 },
        v_ovf: 1,
        v_comp_a: Some(2),
        v_comp_b: Some(3),
        v_capt: None,
        oc_a_gpio: Some(12),
        oc_b_gpio: Some(11),
        c_unit: None,
        icp_gpio: None,
        t_gpio: Some(6),
        clock: CS_SYNC,
        prescaler_group: 1,
        prr_mask: 0x20,
        sleep_run: 0,
    }
}

fn timer1() -> TimerConfig {
    TimerConfig {
        id: 1,
        wide: true,
        tccr_a: 0x80,
        tccr_b: 0x81,
        foc_reg: 0x82,
        tcnt: 0x84,
        ocr_a: Some(0x88),
        ocr_b: Some(0x8a),
        icr: Some(0x86),
        bits: TimerBits { tov: 1, ocfa: 2, ocfb: 4, icf: 0x20 },
        v_capt: Some(4),
        oc_a_gpio: Some(15),
        oc_b_gpio: Some(16),
        icp_gpio: Some(14),
        t_gpio: Some(11),
        prr_mask: 8,
        ..timer0()
    }
}
