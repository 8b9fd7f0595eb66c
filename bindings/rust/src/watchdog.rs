//! A watchdog, held by its owner; each call takes it to the library by value and keeps what comes back.

use crate::answer::Refusal;
use crate::{layout, raw};

/// The watchdog of an ATmega328P. It can only be made by [`Watchdog::new`] and changed by the calls, so the library's one
/// premise, that it is valid, always holds.
#[derive(Clone, Debug, PartialEq, Eq)]
pub struct Watchdog {
    raw: raw::Watchdog,
}

/// A watchdog as it stands, not synced.
#[derive(Clone, Copy, Debug, PartialEq, Eq)]
pub struct WatchdogState {
    /// Oscillator ticks since the last time-out or WDR.
    pub count: u32,
    pub wdif: bool,
    pub wdie: bool,
    pub wde: bool,
    /// The period is 2048 × 2^p ticks.
    pub p: u8,
    /// The cycle of a write of WDCE and WDE together that was the last write.
    pub opened: Option<u64>,
    pub sync: u64,
    pub latest: u64,
}

/// How an advance ended, with the bytes written.
#[derive(Clone, Copy, Debug, PartialEq, Eq)]
pub enum WatchdogAdvanced {
    Done {
        written: usize,
    },
    /// It stopped before a time-out whose record did not fit: read the area, then advance again.
    Paused {
        sync: u64,
        written: usize,
    },
}

impl Watchdog {
    /// A watchdog with all bits clear, at cycle 0.
    ///
    /// # Panics
    /// Where the library that was linked does not lay a watchdog out as this crate does.
    #[allow(clippy::new_without_default)]
    pub fn new() -> Self {
        layout::check_watchdog();
        Self::start()
    }

    pub(crate) fn start() -> Self {
        // SAFETY: the function takes nothing, and layout::check_watchdog has found the library's layout to be ours.
        Self { raw: unsafe { raw::paddlemauve_watchdog() } }
    }

    /// Time passes up to a cycle, or to the first time-out whose record does not fit the area.
    pub fn advance(&mut self, cycle: u64, area: &mut [u8]) -> Result<WatchdogAdvanced, Refusal> {
        // SAFETY: the watchdog came from the library and only the library has changed it, so it is valid, here and below; the
        // area is lent for the call alone.
        let report = self.keep(unsafe { raw::paddlemauve_watchdog_advance(self.raw, cycle, raw::Area::of(area)) })?;
        let written = report.written as usize;
        Ok(match report.what {
            4 => WatchdogAdvanced::Paused { sync: report.value, written },
            _ => WatchdogAdvanced::Done { written },
        })
    }

    /// The cycle of the next time-out, or none while it is stopped.
    pub fn next(&mut self, cycle: u64) -> Result<Option<u64>, Refusal> {
        let report = self.keep(unsafe { raw::paddlemauve_watchdog_next(self.raw, cycle) })?;
        Ok((report.what == 2).then_some(report.value))
    }

    /// WDR: the count starts anew.
    pub fn wdr(&mut self, cycle: u64) -> Result<(), Refusal> {
        self.keep(unsafe { raw::paddlemauve_watchdog_wdr(self.raw, cycle) }).map(|_| ())
    }

    /// The interrupt is served; no effect unless its flag and its enable are set.
    pub fn serve(&mut self, cycle: u64) -> Result<(), Refusal> {
        self.keep(unsafe { raw::paddlemauve_watchdog_serve(self.raw, cycle) }).map(|_| ())
    }

    /// WDTCSR as a program reads it.
    pub fn read(&mut self, cycle: u64) -> Result<u8, Refusal> {
        self.keep(unsafe { raw::paddlemauve_watchdog_read(self.raw, cycle) }).map(|report| report.value as u8)
    }

    /// WDTCSR is written.
    pub fn write(&mut self, value: u8, cycle: u64) -> Result<(), Refusal> {
        self.keep(unsafe { raw::paddlemauve_watchdog_write(self.raw, value, cycle) }).map(|_| ())
    }

    pub fn state(&self) -> WatchdogState {
        let raw::Watchdog { moving: raw::Moving { count, control, window }, sync, latest } = self.raw;
        let raw::Control { wdif, wdie, wde, wdp } = control;
        let opened = window.wdce.then_some(window.since);
        WatchdogState { count, wdif, wdie, wde, p: wdp, opened, sync, latest }
    }

    fn keep(&mut self, watched: raw::Watched) -> Result<raw::Report, Refusal> {
        self.raw = watched.watchdog;
        match watched.report.number {
            0 => Ok(watched.report),
            number => Err(Refusal::of(number)),
        }
    }
}
