//! Sleep, power reduction, TSM, the prescaler and the reset.

use std::rc::Rc;

use super::bends::Bend;
use super::log::Log;
use super::timer::Timer;

impl Timer {
    /// Mode 0 never halts, nor one in which the timer runs.
    pub fn halts_in(&self, mode: u8) -> bool {
        let runs = self.setup.config.sleeprun >> mode & 1 == 1 && !self.bent(Bend::SleepRunIgnored);
        let idle = mode == 0 && !self.bent(Bend::IdleHalts);
        !idle && !runs
    }

    pub fn sleep(&mut self, mode: u8, cycle: u64, log: &mut Log) {
        if self.halts_in(mode) {
            self.pass(cycle, log);
            self.asleep = Some(cycle);
        }
    }

    /// The prescaler slept too: its origin moves by the cycles halted.
    pub fn wake(&mut self, cycle: u64) {
        if let Some(since) = self.asleep.take() {
            if !self.bent(Bend::WakeKeepsOrigin) {
                self.origin += cycle - since;
            }
            self.sync = cycle;
        }
    }

    pub fn reduce_power(&mut self, mask: u16, cycle: u64, log: &mut Log) {
        let reduced = mask & self.setup.config.prr != 0;
        if reduced == self.reduced {
            return;
        }
        self.pass(cycle, log);
        if self.bent(Bend::PowerMovesOrigin) && !reduced {
            self.origin = cycle;
        }
        self.reduced = reduced;
    }

    pub fn set_tsm(&mut self, level: u8, cycle: u64, log: &mut Log) {
        if (level == 1) == self.tsm {
            return;
        }
        self.pass(cycle, log);
        self.tsm = level == 1;
        if !self.tsm && !self.bent(Bend::TsmKeepsOrigin) {
            self.origin = cycle;
        }
    }

    pub fn in_group(&self, mask: u8) -> bool {
        mask & self.setup.config.group != 0 || mask != 0 && self.bent(Bend::PrescalerOfAll)
    }

    pub fn reset_prescaler(&mut self, mask: u8, cycle: u64, log: &mut Log) {
        if self.in_group(mask) {
            self.pass(cycle, log);
            if !self.bent(Bend::PrescalerKeepsOrigin) {
                self.origin = cycle;
            }
        }
    }

    /// A fresh timer at this cycle; TIFR, TIMSK, the drives and the latest cycle outlive it.
    pub fn reset(&mut self, cycle: u64, log: &mut Log) {
        let mut fresh = Timer::new(Rc::clone(&self.setup));
        fresh.tifr = if self.bent(Bend::ResetClearsFlags) { 0 } else { self.tifr };
        fresh.timsk = self.timsk;
        fresh.latest = self.latest;
        fresh.sync = cycle;
        fresh.origin = if self.bent(Bend::ResetKeepsOrigin) { self.origin } else { cycle };
        if self.bent(Bend::ResetKeepsOdometer) {
            fresh.odometer = self.odometer;
        }
        if self.bent(Bend::ResetKeepsSleep) {
            fresh.asleep = self.asleep.map(|_| cycle);
        }
        if !self.bent(Bend::ResetForgetsDrives) {
            fresh.drive = self.drive;
        }
        for channel in fresh.acting() {
            fresh.record_drive(channel, cycle, log);
        }
        *self = fresh;
    }
}
