//! All state of the plain counter, and what follows from it at once.

use std::rc::Rc;

use super::bends::Bend;
use super::log::Log;
use super::setup::Setup;
use super::tables::{self, Clock, Kind, Top};
use crate::script::{ClockTable, Distance, Event, State};

#[derive(Clone)]
pub struct Timer {
    pub setup: Rc<Setup>,
    pub count: u32,
    /// Plus or minus one.
    pub direction: i32,
    pub blocked: bool,
    /// Counts made since the reset.
    pub odometer: u64,
    pub active: [u32; 3],
    pub buffer: [u32; 3],
    pub level: [u8; 3],
    /// Enable and value last recorded for each channel.
    pub drive: [(u8, u8); 3],
    pub control_a: u8,
    pub control_b: u8,
    pub capture: u32,
    pub temp: u8,
    pub tifr: u8,
    pub timsk: u8,
    pub sync: u64,
    pub origin: u64,
    pub latest: u64,
    /// The cycle at which a halting sleep began.
    pub asleep: Option<u64>,
    pub reduced: bool,
    pub tsm: bool,
    pub routed: bool,
}

impl Timer {
    pub fn new(setup: Rc<Setup>) -> Self {
        Self {
            setup,
            count: 0,
            direction: 1,
            blocked: false,
            odometer: 0,
            active: [0; 3],
            buffer: [0; 3],
            level: [0; 3],
            drive: [(0, 0); 3],
            control_a: 0,
            control_b: 0,
            capture: 0,
            temp: 0,
            tifr: 0,
            timsk: 0,
            sync: 0,
            origin: 0,
            latest: 0,
            asleep: None,
            reduced: false,
            tsm: false,
            routed: false,
        }
    }

    pub fn bent(&self, bend: Bend) -> bool {
        self.setup.bent(bend)
    }

    pub fn max(&self) -> u32 {
        if self.setup.config.wide {
            65_535
        } else {
            255
        }
    }

    pub fn mode(&self) -> usize {
        let high = if self.setup.config.wide { self.control_b >> 3 & 3 } else { self.control_b >> 3 & 1 };
        (high << 2 | self.control_a & 3) as usize
    }

    fn row(&self) -> (Kind, Top) {
        if self.setup.config.wide {
            tables::WIDE[self.mode()]
        } else {
            tables::NARROW[self.mode()]
        }
    }

    pub fn kind(&self) -> Kind {
        self.row().0
    }

    pub fn top_source(&self) -> Top {
        self.row().1
    }

    pub fn top(&self) -> u32 {
        match self.top_source() {
            Top::Fixed(top) => top,
            Top::A => self.active[0],
            Top::I => self.capture,
        }
    }

    /// N and C: compares act unbuffered, and force strobes work.
    pub fn unbuffered(&self) -> bool {
        matches!(self.kind(), Kind::N | Kind::C)
    }

    pub fn clock(&self) -> Clock {
        let (table, select) = (self.setup.config.clock, self.control_b & 7);
        if self.bent(Bend::Timer2Divisor) && table == ClockTable::Timer2 && select == 3 {
            return Clock::Divided(64);
        }
        tables::clock(table, select)
    }

    pub fn held(&self) -> bool {
        self.asleep.is_some() || self.reduced || self.tsm && !self.bent(Bend::TsmDoesNotHold)
    }

    /// Cycles a tick, while the counter runs.
    pub fn divisor(&self) -> Option<u64> {
        match self.clock() {
            Clock::Divided(divisor) if !self.held() => Some(divisor),
            _ => None,
        }
    }

    /// The cycle of the first tick after the sync cycle.
    pub fn next_tick(&self, divisor: u64) -> u64 {
        self.origin + ((self.sync - self.origin) / divisor + 1) * divisor
    }

    /// The next event: the first tick that leaves a place where something may happen.
    pub fn next_event(&self) -> Option<u64> {
        let divisor = self.divisor()?;
        Some(self.next_tick(divisor) + self.quiet_ticks() as u64 * divisor)
    }

    /// That event with the flags that its tick raises.
    pub fn announced(&self) -> Option<Event> {
        self.next_event().map(|cycle| Event { cycle, flags: self.flags_ahead() })
    }

    /// The flags of the next event's tick, which is worked on a copy whose count the quiet ticks have stepped.
    fn flags_ahead(&self) -> u8 {
        let mut copy = self.clone();
        let quiet = if self.bent(Bend::FlagsAsItStands) { 0 } else { self.quiet_ticks() };
        copy.blocked &= quiet == 0 && !self.bent(Bend::BlockedMatchAnnounced);
        copy.count = if self.falls() { self.count - quiet } else { self.count + quiet };
        copy.tifr = 0;
        copy.tick(0, &mut Log::default());
        copy.tifr
    }

    fn falls(&self) -> bool {
        self.direction < 0 && matches!(self.kind(), Kind::P | Kind::Q)
    }

    /// How many ticks only step the count: up to a compare, TOP or MAX, or down to a compare or 0.
    fn quiet_ticks(&self) -> u32 {
        let shown = |&ch: &usize| self.setup.channels[ch].present && !(ch == 2 && self.bent(Bend::EventForgetsC));
        let passed = |value: u32| self.bent(Bend::BlockedEventSkipped) && self.blocked && value == self.count;
        let mut places: Vec<u32> = (0..3).filter(shown).map(|ch| self.active[ch]).filter(|&v| !passed(v)).collect();
        if self.falls() {
            places.push(0);
            return places.into_iter().filter(|&p| p <= self.count).map(|p| self.count - p).min().unwrap_or(0);
        }
        places.extend([self.top(), self.max()]);
        let round = self.max() + 1;
        places.into_iter().map(|p| (p + round - self.count) % round).min().unwrap_or(0)
    }

    /// The distance to the next event's tick, and how many compares tell it: up to the first at the count, else all there are.
    pub fn distance(&self) -> Distance {
        let present = (0..3).filter(|&ch| self.setup.channels[ch].present);
        let mut looked = 0;
        for ch in present {
            looked += 1;
            if self.active[ch] == self.count {
                break;
            }
        }
        Distance { ticks: self.quiet_ticks() as u64 + 1, flags: self.flags_ahead(), looked }
    }

    /// The flag bits of overflow, A, B, capture and C.
    pub fn flag_bits(&self) -> [u8; 5] {
        let [a, b, c] = self.setup.channels.map(|ch| ch.flag);
        [self.setup.config.tov, a, b, self.setup.config.icf, c]
    }

    pub fn lines(&self) -> [bool; 5] {
        let mask = if self.bent(Bend::LinesIgnoreMask) { 0xff } else { self.timsk };
        self.flag_bits().map(|bit| self.tifr & mask & bit != 0)
    }

    pub fn state(&self) -> State {
        let channels = &self.setup.channels;
        let compares = |values: [u32; 3]| [0, 1, 2].map(|ch| channels[ch].present.then_some(values[ch]));
        State {
            count: self.count,
            dir: self.direction,
            ocr: compares(self.active),
            buf: compares(self.buffer),
            icr: self.capture,
            temp: self.temp,
            oc: self.level,
            drive: [0, 1, 2].map(|ch| channels[ch].pin.map(|_| self.drive[ch])),
            block: self.blocked,
            tccra: self.control_a,
            tccrb: self.control_b,
            tifr: self.tifr,
            timsk: self.timsk,
            lines: self.lines(),
            sync: self.sync,
            origin: self.origin,
            asleep: self.asleep.is_some(),
            prr: self.reduced,
            tsm: self.tsm,
            route: self.routed,
            latest: self.latest,
            odometer: Some(self.odometer),
        }
    }
}
