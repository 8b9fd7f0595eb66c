//! Compare outputs and the drives recorded of them.

use super::bends::Bend;
use super::log::Log;
use super::tables::Kind;
use super::timer::Timer;

impl Timer {
    /// Channels that act: A and B always, C where the timer has it.
    pub fn acting(&self) -> std::ops::Range<usize> {
        0..if self.setup.channels[2].present { 3 } else { 2 }
    }

    fn com(&self, channel: usize) -> u8 {
        self.control_a >> [6, 4, 2][channel] & 3
    }

    /// Whether COM 1 toggles this channel in this mode.
    fn toggles(&self, channel: usize) -> bool {
        let modes: &[usize] = match (self.setup.config.wide, self.bent(Bend::FourteenToggles)) {
            (false, _) => &[5, 7],
            (true, false) => &[9, 11, 15],
            (true, true) => &[9, 11, 14, 15],
        };
        self.unbuffered() || modes.contains(&self.mode()) && (channel == 0 || self.bent(Bend::ToggleOnB))
    }

    fn enabled(&self, channel: usize) -> bool {
        match self.com(channel) {
            0 => false,
            1 => self.toggles(channel),
            _ => true,
        }
    }

    /// A match, or a force strobe, acts on the output.
    pub fn act(&mut self, channel: usize, count: u32, top: u32, cycle: u64, log: &mut Log) {
        let ignored =
            self.bent(Bend::TopMatchIgnored) && self.kind() == Kind::F && count == top && self.com(channel) >= 2;
        if !self.enabled(channel) || ignored {
            return;
        }
        let set_rising = self.com(channel) == 3;
        self.level[channel] = match (self.com(channel), self.kind()) {
            (1, _) => 1 - self.level[channel],
            (_, Kind::N | Kind::C | Kind::F) => set_rising as u8,
            _ => (set_rising == self.match_rises(count, top)) as u8,
        };
        self.record_drive(channel, cycle, log);
    }

    /// In P and Q a match at TOP counts as falling, otherwise one at 0 as rising.
    fn match_rises(&self, count: u32, top: u32) -> bool {
        if self.bent(Bend::FallingAsRising) {
            true
        } else if count == top && !self.bent(Bend::TopMatchRises) {
            false
        } else if count == 0 && !self.bent(Bend::ZeroMatchFalls) {
            true
        } else {
            self.direction > 0
        }
    }

    /// BOTTOM in F: COM 2 sets and COM 3 clears.
    pub fn bottom(&mut self, cycle: u64, log: &mut Log) {
        if self.bent(Bend::FastBottomSilent) {
            return;
        }
        for channel in self.acting() {
            let skipped = self.bent(Bend::FastBottomSkipsAbsent) && !self.setup.channels[channel].present;
            if self.com(channel) >= 2 && !skipped {
                self.level[channel] = (self.com(channel) == 2) as u8;
                self.record_drive(channel, cycle, log);
            }
        }
    }

    /// Records the drive of a channel with a pin, if it changed.
    pub fn record_drive(&mut self, channel: usize, cycle: u64, log: &mut Log) {
        let Some(pin) = self.setup.channels[channel].pin else {
            return;
        };
        let enable = self.enabled(channel) as u8;
        let hidden = enable == 0 && self.bent(Bend::OffDrivesZero);
        let drive = (enable, if hidden { 0 } else { self.level[channel] });
        if drive != self.drive[channel] || self.bent(Bend::DriveAlwaysRecorded) {
            self.drive[channel] = drive;
            log.pin(cycle, pin, drive);
        }
    }
}
