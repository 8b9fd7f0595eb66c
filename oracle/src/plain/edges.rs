//! Edges on the T pin, the capture pin and the comparator's output.

use super::bends::Bend;
use super::log::Log;
use super::tables::{Clock, Top};
use super::tick::Raised;
use super::timer::Timer;

impl Timer {
    pub fn edge(&mut self, pin: u8, level: u8, cycle: u64, log: &mut Log) {
        if self.setup.config.icp == Some(pin) && (!self.routed || self.bent(Bend::CaptureIgnoresRoute)) {
            self.capture_edge(level, cycle, log);
        }
        if self.setup.config.t == Some(pin) {
            self.clock_edge(level, cycle, log);
        }
    }

    /// A chosen T edge, if nothing holds the counter, works one tick.
    fn clock_edge(&mut self, level: u8, cycle: u64, log: &mut Log) {
        let level = if self.bent(Bend::EdgesSwapped) { 1 - level } else { level };
        let chosen = match self.clock() {
            Clock::Falling => level == 0,
            Clock::Rising => level == 1,
            _ => false,
        };
        let held = self.held() && !(self.bent(Bend::HeldEdgeCounts) && self.asleep.is_some());
        if chosen && !held {
            let counts = self.odometer;
            self.tick(cycle, log);
            if self.bent(Bend::EdgeUncounted) {
                self.odometer = counts;
            }
            if !self.bent(Bend::EdgeKeepsSync) {
                self.sync = cycle;
            }
        }
    }

    /// The comparator's output, while it is routed here.
    pub fn comparator(&mut self, level: u8, cycle: u64, log: &mut Log) {
        if self.routed {
            self.capture_edge(level, cycle, log);
        }
    }

    /// Routing is obeyed only by a timer with ICR.
    pub fn route(&mut self, level: u8) {
        if self.setup.config.icr.is_some() {
            self.routed = level == 1;
        }
    }

    fn capture_edge(&mut self, level: u8, cycle: u64, log: &mut Log) {
        let is_top = self.top_source() == Top::I && !self.bent(Bend::CaptureOverTop);
        let wanted = self.control_b >> 6 & 1 == level || self.bent(Bend::CaptureAnyEdge);
        let asleep = self.asleep.is_some() && self.bent(Bend::CaptureHeld);
        if self.setup.config.icr.is_none() || is_top || !wanted || asleep {
            return;
        }
        self.pass(cycle, log);
        self.capture = self.count;
        self.raise(Raised { capture: true, ..Raised::default() }, cycle, log);
    }
}
