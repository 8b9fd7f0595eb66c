//! TIFR, TIMSK, and the flag record with its triggers.

use super::bends::Bend;
use super::log::Log;
use super::tick::Raised;
use super::timer::Timer;

impl Timer {
    /// Sets the flags, writes one flag record if any is raised, then triggers 1 to 4.
    pub fn raise(&mut self, raised: Raised, cycle: u64, log: &mut Log) {
        let Raised { overflow, compare: [a, b, c], capture } = raised;
        let mut bits = 0;
        for (bit, on) in self.flag_bits().into_iter().zip([overflow, a, b, capture, c]) {
            bits |= if on { bit } else { 0 };
        }
        let quiet = self.bent(Bend::FlagRecordOnNew) && self.tifr & bits == bits;
        self.tifr |= bits;
        if bits != 0 && !quiet {
            log.flags(cycle, bits, self.lines());
        }
        let has_capture = self.setup.config.icf != 0 || self.bent(Bend::CaptureTriggerWithoutFlag);
        let mut triggers = vec![(1, a), (2, b), (3, overflow), (4, capture && has_capture)];
        if self.bent(Bend::TriggersReversed) {
            triggers.reverse();
        }
        for (number, _) in triggers.into_iter().filter(|t| t.1) {
            log.trigger(cycle, number, self.setup.config.id);
        }
    }

    /// Writing one clears.
    pub fn write_tifr(&mut self, value: u8, cycle: u64, log: &mut Log) {
        let before = self.lines();
        self.tifr &= !value;
        if self.bent(Bend::FlagWriteRecorded) && self.lines() != before {
            log.flags(cycle, 0, self.lines());
        }
    }

    pub fn write_timsk(&mut self, value: u8) {
        let own = self.flag_bits().into_iter().fold(0, |all, bit| all | bit);
        self.timsk = if self.bent(Bend::MaskOwnBits) { value & own } else { value };
    }
}
