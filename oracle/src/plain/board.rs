//! The plain board: three plain counters and GTCCR, written from 02's words (2.6) alone.

use super::bends::Bend;
use super::Plain;
use crate::script::{Answer, Areas, BoardState, Call, Config, Order, Side, Told};

const GTCCR: u16 = 0x43;
const TIFR: [u16; 3] = [0x35, 0x36, 0x37];
const TIMSK: [u16; 3] = [0x6e, 0x6f, 0x70];

/// GTCCR's bits: TSM, the prescaler of Timer2, and the one that Timer0 and Timer1 share.
const TSM: u8 = 0x80;
const PSRASY: u8 = 2;
const PSRSYNC: u8 = 1;

#[derive(Clone)]
pub struct Board {
    timers: [Plain; 3],
    gtccr: u8,
    scheduled: [Option<u64>; 3],
    bend: Option<Bend>,
}

/// What an order reaches.
enum Aim {
    Nobody,
    Gtccr,
    One(usize, Call),
    /// All three, by the same calls, and GTCCR after them.
    All(Vec<Call>, u8),
}

/// The number of a refusal.
fn refusal(answer: &Answer) -> Option<u8> {
    match answer {
        Answer::Refused(number) => Some(*number),
        _ => None,
    }
}

impl Board {
    pub fn new(bend: Option<Bend>) -> Self {
        let timer = |name: &str| {
            let mut config = Config::read_preset(&[name]).expect("a preset");
            if name == "m328p.timer2" && bend == Some(Bend::Timer2SleepsToo) {
                config.sleeprun = 0;
            }
            let mut plain = Plain::new(bend);
            plain.configure(&config);
            plain
        };
        let timers = ["m328p.timer0", "m328p.timer1", "m328p.timer2"].map(timer);
        Self { timers, gtccr: 0, scheduled: [None; 3], bend }
    }

    fn bent(&self, bend: Bend) -> bool {
        self.bend == Some(bend)
    }

    pub fn order(&mut self, order: Order, cycle: u64, areas: &mut Areas) -> Told {
        match self.aim(order) {
            Aim::Nobody if self.bent(Bend::SixteenIsFour) => Told::refused(4),
            Aim::Nobody if self.bent(Bend::SixteenComesLast) && cycle >> 62 != 0 => Told::refused(2),
            Aim::Nobody => Told::refused(16),
            Aim::Gtccr if self.bent(Bend::GtccrReadHasCycle) && cycle >> 62 != 0 => Told::refused(2),
            Aim::Gtccr => self.told(Answer::Done { value: Some(self.gtccr), next: None, bytes: 0 }, [0; 3]),
            Aim::One(timer, call) => self.one(timer, call, cycle, &mut areas[timer]),
            Aim::All(calls, gtccr) => self.all(&calls, gtccr, cycle, areas),
        }
    }

    fn aim(&self, order: Order) -> Aim {
        match order {
            Order::Advance(timer) => Aim::One(timer, Call::Advance),
            Order::Next(timer) => Aim::One(timer, Call::Next),
            Order::Reset(timer) => Aim::One(timer, Call::Reset),
            Order::Edge { timer, pin, level } => Aim::One(timer, Call::Edge { pin, level }),
            Order::Route(timer, level) => Aim::One(timer, Call::Route(level)),
            Order::AcOut(timer, level) => Aim::One(timer, Call::AcOut(level)),
            Order::Tifr(timer) => self.flags(timer, Call::Tifr),
            Order::Timsk(timer) => self.flags(timer, Call::Timsk),
            Order::WriteTifr(timer, value) => self.flags(timer, Call::WriteTifr(value)),
            Order::WriteTimsk(timer, value) => self.flags(timer, Call::WriteTimsk(value)),
            Order::Read(GTCCR) | Order::Peek(GTCCR) => Aim::Gtccr,
            Order::Write(GTCCR, value) => self.gtccr_written(value),
            Order::Read(at) => self.at(at, Call::Tifr, Call::Timsk, Call::Read(at)),
            Order::Peek(at) => self.at(at, Call::Tifr, Call::Timsk, Call::Peek(at)),
            Order::Write(at, value) => {
                self.at(at, Call::WriteTifr(value), Call::WriteTimsk(value), Call::Write(at, value))
            }
            Order::Sleep(mode) => Aim::All(vec![Call::Sleep(mode)], self.gtccr),
            Order::Wake => Aim::All(vec![Call::Wake], self.gtccr),
            Order::Prr(_) if self.bent(Bend::PrrIsOneBit) => Aim::All(vec![Call::Prr(0x68)], self.gtccr),
            Order::Prr(value) => Aim::All(vec![Call::Prr(value as u16)], self.gtccr),
        }
    }

    /// A flag call by the timer's id.
    fn flags(&self, timer: usize, call: Call) -> Aim {
        Aim::One(if self.bent(Bend::FlagsOfTimer0) { 0 } else { timer }, call)
    }

    /// The call on the timer whose TIFR, TIMSK or register stands at an address.
    fn at(&self, address: u16, tifr: Call, timsk: Call, register: Call) -> Aim {
        for timer in 0..3 {
            let call = match address {
                _ if address == TIFR[timer] => tifr,
                _ if address == TIMSK[timer] => timsk,
                _ if self.timers[timer].owns(address) => register,
                _ => continue,
            };
            return Aim::One(timer, call);
        }
        Aim::Nobody
    }

    /// TSM of all three, left alone where the bit stays; then the prescalers. With TSM the reset bits are kept, without it all read 0.
    fn gtccr_written(&self, value: u8) -> Aim {
        let mut calls = Vec::new();
        if (value ^ self.gtccr) & TSM != 0 || self.bent(Bend::TsmToldAgain) {
            calls.push(Call::Tsm(value >> 7));
        }
        let resets = value & (PSRASY | PSRSYNC);
        let told = if self.bent(Bend::PrescalersSwapped) { resets << 1 & 2 | resets >> 1 } else { resets };
        calls.push(Call::Presc(told));
        let kept = value & TSM != 0 || self.bent(Bend::ResetBitsStay);
        let all = if self.bent(Bend::GtccrWhole) { 0xff } else { TSM | PSRASY | PSRSYNC };
        Aim::All(calls, if kept { value & all } else { 0 })
    }

    fn one(&mut self, timer: usize, call: Call, cycle: u64, area: &mut [u8]) -> Told {
        let answer = self.timers[timer].call(call, cycle, area);
        if let Some(number) = refusal(&answer) {
            return Told::refused(number);
        }
        if call == Call::Reset && self.bent(Bend::ResetClearsTsm) {
            self.gtccr = 0;
        }
        let mut bytes = [0; 3];
        bytes[timer] = answer.bytes();
        self.told(answer, bytes)
    }

    /// Refused with the lowest number if one of them would refuse, and then none changes.
    fn all(&mut self, calls: &[Call], gtccr: u8, cycle: u64, areas: &mut Areas) -> Told {
        let idle = gtccr == self.gtccr && calls == [Call::Presc(0)] && self.bent(Bend::IdleWritePasses);
        let mut after = self.timers.clone();
        let mut numbers = Vec::new();
        for timer in 0..3 {
            if timer == 2 && self.bent(Bend::Timer2Unreached) || idle {
                continue;
            }
            let refused = calls.iter().find_map(|&call| refusal(&after[timer].call(call, cycle, &mut areas[timer])));
            numbers.extend(refused);
        }
        let first = numbers.first().copied();
        let number = if self.bent(Bend::FirstNumber) { first } else { numbers.iter().min().copied() };
        let number = if self.bent(Bend::HighestNumber) { numbers.iter().max().copied() } else { number };
        if number.is_none() || self.bent(Bend::RefusedReachesOthers) {
            self.timers = after;
        }
        if let Some(number) = number {
            return Told::refused(number);
        }
        self.gtccr = gtccr;
        self.told(Answer::Done { value: None, next: None, bytes: 0 }, [0; 3])
    }

    /// An accepted order: the scheduler now holds exactly the next events.
    fn told(&mut self, answer: Answer, bytes: [usize; 3]) -> Told {
        let next = [0, 1, 2].map(|timer| self.timers[timer].announced());
        for (held, event) in self.scheduled.iter_mut().zip(next) {
            if event.is_some() || self.bend != Some(Bend::EventOutlivesStop) {
                *held = event.map(|event| event.cycle);
            }
        }
        Told { answer, next, bytes }
    }

    pub fn state(&self) -> BoardState {
        let timers = [0, 1, 2].map(|timer| self.timers[timer].state().expect("a timer of the board"));
        BoardState { gtccr: self.gtccr, sched: self.scheduled, timers }
    }
}
