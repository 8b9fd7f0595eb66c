//! A timer, held by its owner and lent to the library for each call.

use std::fmt;

use crate::answer::{Answer, Call, Next, Outcome, Refusal};
use crate::config::Config;
use crate::{layout, raw};

/// A timer of an accepted configuration. It can only be made by [`Timer::new`] and changed by the calls, so the
/// library's one premise, that what is kept of a valid timer is kept, always holds.
#[derive(Clone)]
pub struct Timer {
    pub(crate) raw: raw::Held,
}

/// A timer as it stands, not synced.
#[derive(Clone, Copy, Debug, PartialEq, Eq)]
pub struct State {
    pub count: u32,
    /// 1 or −1.
    pub direction: i32,
    /// A write of the count blocks the next match.
    pub blocked: bool,
    /// The compares at work in channels A, B and C, and those written.
    pub ocr: [u32; 3],
    pub buffer: [u32; 3],
    /// The output levels.
    pub oc: [u8; 3],
    /// Enable and value of the drive last recorded for each channel.
    pub drives: [(u8, u8); 3],
    pub tccra: u8,
    pub tccrb: u8,
    pub icr: u32,
    pub temp: u8,
    pub tifr: u8,
    pub timsk: u8,
    pub sync: u64,
    pub origin: u64,
    pub latest: u64,
    pub asleep: bool,
    pub reduced: bool,
    pub tsm: bool,
    pub routed: bool,
    /// The counts made since the reset, modulo 2^64.
    pub odometer: u64,
}

/// How an advance ended, with the bytes written, and the flags of the then next event, 0 where there is none.
#[derive(Clone, Copy, Debug, PartialEq, Eq)]
pub enum Advanced {
    Done {
        written: usize,
        flags: u8,
    },
    /// It stopped before a tick whose records did not fit: read the area, then advance again.
    Paused {
        sync: u64,
        written: usize,
        flags: u8,
    },
}

/// How far the next event's tick lies from the last one worked.
#[derive(Clone, Copy, Debug, PartialEq, Eq)]
pub struct Distance {
    pub ticks: u32,
    /// The TIFR bits that its tick will raise.
    pub flags: u8,
    /// How many compares were looked at: A, B, C in turn, up to the first that is one tick off, else all there are.
    pub looked: u8,
}

impl Timer {
    /// A fresh timer at cycle 0; refused where the configuration breaks a rule.
    ///
    /// # Panics
    /// Where the library that was linked does not lay a timer out as this crate does.
    pub fn new(config: &Config) -> Result<Self, Refusal> {
        layout::check();
        Self::start(config)
    }

    pub(crate) fn start(config: &Config) -> Result<Self, Refusal> {
        // SAFETY: the function takes any configuration, and layout::check has found the library's layouts to be ours.
        let begun = unsafe { raw::paddlemauve_start(config.raw()) };
        match begun.number {
            0 => Ok(Self { raw: begun.timer }),
            number => Err(Refusal::of(number)),
        }
    }

    /// Any call, at its cycle, with the area for its records.
    #[inline]
    pub fn call(&mut self, call: Call, cycle: u64, area: &mut [u8]) -> Outcome {
        // SAFETY: the timer came from the library and only the library has changed it, so what is kept of it is kept; the
        // area is lent for the call alone.
        let reply = unsafe {
            match call {
                Call::Advance => raw::paddlemauve_advance(&mut self.raw, cycle, raw::Area::of(area)),
                Call::Write(address, value) => {
                    raw::paddlemauve_write(&mut self.raw, cycle, raw::Area::of(area), address, value)
                }
                _ => raw::paddlemauve_call(&mut self.raw, call.asked(cycle), raw::Area::of(area)),
            }
        };
        Outcome { answer: Answer::of(&reply), written: reply.written as usize, next: Next::of(&reply) }
    }

    /// Time passes up to a cycle, or to the first tick whose records do not fit the area.
    #[inline]
    pub fn advance(&mut self, cycle: u64, area: &mut [u8]) -> Result<Advanced, Refusal> {
        // SAFETY: as of call.
        let reply = unsafe { raw::paddlemauve_advance(&mut self.raw, cycle, raw::Area::of(area)) };
        let written = reply.written as usize;
        match Answer::of(&reply) {
            Answer::Refused(why) => Err(why),
            Answer::Reached(flags) => Ok(Advanced::Done { written, flags }),
            Answer::Paused(sync, flags) => Ok(Advanced::Paused { sync, written, flags }),
            other => unreachable!("an advance answers {other:?}"),
        }
    }

    /// The next event with its flags, or none where the counter does not run.
    #[inline]
    pub fn next(&mut self, cycle: u64) -> Result<Option<Next>, Refusal> {
        // SAFETY: as of call.
        let reply = unsafe { raw::paddlemauve_next(&mut self.raw, cycle) };
        match Answer::of(&reply) {
            Answer::Refused(why) => Err(why),
            Answer::Next(at) => Ok(at),
            other => unreachable!("next answers {other:?}"),
        }
    }

    /// A register's byte as a program reads it: of TCNTn and ICRn a low byte fills TEMP, a high byte is TEMP; OCRn passes TEMP by.
    #[inline]
    pub fn read(&mut self, address: u16, cycle: u64) -> Result<u8, Refusal> {
        let raw::Config { tcnt, wide, .. } = self.raw.timer.config;
        // SAFETY: as of call.
        let reply = unsafe {
            if address == tcnt {
                raw::paddlemauve_count_low(&mut self.raw, cycle)
            } else if wide && address == tcnt.wrapping_add(1) {
                raw::paddlemauve_count_high(&mut self.raw, cycle)
            } else {
                raw::paddlemauve_call(&mut self.raw, Call::Read(address).asked(cycle), raw::Area::of(&mut []))
            }
        };
        byte_of(&reply)
    }

    /// A register's byte; TEMP is left as it is.
    #[inline]
    pub fn peek(&mut self, address: u16, cycle: u64) -> Result<u8, Refusal> {
        self.byte(Call::Peek(address), cycle)
    }

    /// A register's byte is written; yields the bytes of the records.
    #[inline]
    pub fn write(&mut self, address: u16, value: u8, cycle: u64, area: &mut [u8]) -> Result<usize, Refusal> {
        // SAFETY: as of call.
        let reply = unsafe { raw::paddlemauve_write(&mut self.raw, cycle, raw::Area::of(area), address, value) };
        accepted(&reply).map(|()| reply.written as usize)
    }

    #[inline]
    pub fn tifr(&mut self, cycle: u64) -> Result<u8, Refusal> {
        // SAFETY: as of call.
        byte_of(&unsafe { raw::paddlemauve_tifr(&mut self.raw, cycle) })
    }

    pub fn timsk(&mut self, cycle: u64) -> Result<u8, Refusal> {
        self.byte(Call::Timsk, cycle)
    }

    /// Ones clear bits of TIFR.
    #[inline]
    pub fn write_tifr(&mut self, ones: u8, cycle: u64) -> Result<(), Refusal> {
        // SAFETY: as of call.
        accepted(&unsafe { raw::paddlemauve_clear(&mut self.raw, ones, cycle) })
    }

    pub fn write_timsk(&mut self, mask: u8, cycle: u64) -> Result<(), Refusal> {
        self.silent(Call::WriteTimsk(mask), cycle)
    }

    /// A pin's edge to a level: a capture, a tick of the T pin, or nothing; yields the bytes of the records.
    pub fn edge(&mut self, pin: u8, level: u8, cycle: u64, area: &mut [u8]) -> Result<usize, Refusal> {
        self.recorded(Call::Edge { pin, level }, cycle, area)
    }

    /// The comparator's output takes a level; yields the bytes of the records.
    pub fn output(&mut self, level: u8, cycle: u64, area: &mut [u8]) -> Result<usize, Refusal> {
        self.recorded(Call::Output(level), cycle, area)
    }

    /// The comparator's output is routed to the capture (1) or not (0).
    pub fn route(&mut self, level: u8, cycle: u64) -> Result<(), Refusal> {
        self.silent(Call::Route(level), cycle)
    }

    pub fn sleep(&mut self, mode: u8, cycle: u64) -> Result<(), Refusal> {
        self.silent(Call::Sleep(mode), cycle)
    }

    pub fn wake(&mut self, cycle: u64) -> Result<(), Refusal> {
        self.silent(Call::Wake, cycle)
    }

    /// The power reduction register takes a mask.
    pub fn reduce(&mut self, mask: u16, cycle: u64) -> Result<(), Refusal> {
        self.silent(Call::Reduce(mask), cycle)
    }

    pub fn tsm(&mut self, level: u8, cycle: u64) -> Result<(), Refusal> {
        self.silent(Call::Tsm(level), cycle)
    }

    /// The prescalers that the mask names are reset.
    pub fn prescale(&mut self, mask: u8, cycle: u64) -> Result<(), Refusal> {
        self.silent(Call::Prescale(mask), cycle)
    }

    /// The timer is reset; yields the bytes of the records.
    pub fn reset(&mut self, cycle: u64, area: &mut [u8]) -> Result<usize, Refusal> {
        self.recorded(Call::Reset, cycle, area)
    }

    /// The counts made since the reset, prescaled ticks and T-pin ticks alike, modulo 2^64, as the timer stands.
    pub fn odometer(&self) -> u64 {
        self.raw.timer.counter.odometer
    }

    pub fn state(&self) -> State {
        let raw::Timer { counter, ocr, buffer, oc, drives, registers, flags, clock, halts, .. } = self.raw.timer;
        State {
            count: counter.count,
            direction: counter.direction,
            blocked: counter.blocked,
            ocr,
            buffer,
            oc,
            drives: [0, 1, 2].map(|ch| (drives.enables[ch], drives.values[ch])),
            tccra: registers.tccra,
            tccrb: registers.tccrb,
            icr: registers.icr,
            temp: registers.temp,
            tifr: flags.tifr,
            timsk: flags.timsk,
            sync: clock.sync,
            origin: clock.origin,
            latest: clock.latest,
            asleep: halts.asleep,
            reduced: halts.reduced,
            tsm: halts.tsm,
            routed: halts.routed,
            odometer: counter.odometer,
        }
    }

    /// The distance of the timer as it stands, running or not.
    pub fn distance(&self) -> Distance {
        // SAFETY: the timer came from the library and only the library has changed it, so it is valid.
        let raw::Distance { ticks, flags, looked } = unsafe { raw::paddlemauve_distance(self.raw.timer) };
        Distance { ticks, flags, looked }
    }

    /// How many ticks later an edge at the second cycle is captured than one at the first, of the timer as it stands: negative where
    /// the second comes first, 0 where the counter does not run. Nothing changes.
    ///
    /// ```
    /// use paddlemauve::{Config, Refusal, Timer};
    ///
    /// let mut timer = Timer::new(&Config::M328P_TIMER1)?;
    /// timer.write(0x81, 0x05, 0, &mut [])?; // clock / 1024
    /// assert_eq!(timer.shift(16_000_000, 17_600_000)?, 1562);
    /// assert_eq!(timer.shift(17_600_000, 16_000_000)?, -1562);
    /// assert_eq!(timer.shift(0, 32_767 * 1024), Err(Refusal::TooFarApart));
    /// # Ok::<(), Refusal>(())
    /// ```
    pub fn shift(&self, first: u64, second: u64) -> Result<i32, Refusal> {
        // SAFETY: the timer came from the library and only the library has changed it, so it is valid.
        let raw::Shifted { number, ticks } = unsafe { raw::paddlemauve_shift(self.raw.timer, first, second) };
        match number {
            0 => Ok(ticks),
            number => Err(Refusal::of(number)),
        }
    }

    /// A call that yields a byte and writes no record.
    #[inline]
    fn byte(&mut self, call: Call, cycle: u64) -> Result<u8, Refusal> {
        match self.call(call, cycle, &mut []).answer {
            Answer::Refused(why) => Err(why),
            Answer::Value(byte) => Ok(byte),
            other => unreachable!("{call:?} answers {other:?}"),
        }
    }

    /// A call that writes records and yields nothing else.
    #[inline]
    fn recorded(&mut self, call: Call, cycle: u64, area: &mut [u8]) -> Result<usize, Refusal> {
        let Outcome { answer, written, .. } = self.call(call, cycle, area);
        match answer {
            Answer::Refused(why) => Err(why),
            _ => Ok(written),
        }
    }

    /// A call that yields nothing and writes no record.
    fn silent(&mut self, call: Call, cycle: u64) -> Result<(), Refusal> {
        self.recorded(call, cycle, &mut []).map(|_| ())
    }
}

/// Was a call accepted.
#[inline]
fn accepted(reply: &raw::Reply) -> Result<(), Refusal> {
    match reply.number {
        0 => Ok(()),
        number => Err(Refusal::of(number)),
    }
}

/// What a call that yields a byte replied.
#[inline]
fn byte_of(reply: &raw::Reply) -> Result<u8, Refusal> {
    accepted(reply).map(|()| reply.value as u8)
}

impl PartialEq for Timer {
    fn eq(&self, other: &Self) -> bool {
        self.raw.timer == other.raw.timer
    }
}

impl Eq for Timer {}

impl fmt::Debug for Timer {
    fn fmt(&self, f: &mut fmt::Formatter) -> fmt::Result {
        self.raw.timer.fmt(f)
    }
}
