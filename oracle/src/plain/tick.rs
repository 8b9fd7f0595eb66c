//! One tick by 01's rules, from the old count and the old TOP.

use super::bends::Bend;
use super::log::Log;
use super::tables::{Kind, Top};
use super::timer::Timer;

/// The flags that a tick or a capture raises.
#[derive(Clone, Copy, Default, PartialEq, Eq)]
pub struct Raised {
    pub overflow: bool,
    pub compare: [bool; 3],
    pub capture: bool,
}

impl Timer {
    pub fn tick(&mut self, cycle: u64, log: &mut Log) {
        let (old, top) = (self.count, self.top());
        let mut raised = Raised::default();
        let was_blocked = self.blocked;
        self.odometer = self.odometer.wrapping_add(1);
        if !was_blocked {
            self.match_compares(old, top, cycle, &mut raised, log);
        }
        if !self.bent(Bend::BlockLasts) {
            self.blocked = false;
        }
        match self.kind() {
            Kind::N => self.tick_normal(old, &mut raised),
            Kind::C => self.tick_ctc(old, top, was_blocked, &mut raised),
            Kind::F => self.tick_fast(old, top, cycle, &mut raised, log),
            Kind::P | Kind::Q if self.direction > 0 => self.tick_rising(old, top, &mut raised),
            Kind::P | Kind::Q => self.tick_falling(old, top, &mut raised),
        }
        if raised != Raised::default() {
            self.raise(raised, cycle, log);
        }
    }

    fn match_compares(&mut self, old: u32, top: u32, cycle: u64, raised: &mut Raised, log: &mut Log) {
        let reversed = self.bent(Bend::CompareReversed);
        for place in self.acting() {
            let channel = if reversed { self.acting().end - 1 - place } else { place };
            if self.setup.channels[channel].present && self.active[channel] == old {
                raised.compare[channel] = !(channel == 2 && self.bent(Bend::CompareCSilent));
                self.act(channel, old, top, cycle, log);
            }
        }
    }

    fn at_top(&self, old: u32, top: u32) -> bool {
        old == top || old > top && self.bent(Bend::AboveTopIsTop)
    }

    /// Up by one, from MAX to 0.
    fn up(&self, old: u32) -> u32 {
        let down =
            self.bent(Bend::DownInNormal) && self.direction < 0 && matches!(self.kind(), Kind::N | Kind::C | Kind::F);
        let step = if down { self.max() } else { 1 };
        (old + step) % (self.max() + 1)
    }

    fn load(&mut self) {
        self.active = self.buffer;
    }

    /// Reaching TOP raises ICF where ICR is TOP.
    fn reach_top(&self, raised: &mut Raised) {
        raised.capture = self.top_source() == Top::I && !self.bent(Bend::TopRaisesNoCapture);
    }

    fn tick_normal(&mut self, old: u32, raised: &mut Raised) {
        let last = if self.bent(Bend::NormalOverflowAtZero) { 0 } else { self.max() };
        raised.overflow = old == last;
        self.count = self.up(old);
    }

    fn tick_ctc(&mut self, old: u32, top: u32, was_blocked: bool, raised: &mut Raised) {
        raised.overflow = old == self.max() && !self.bent(Bend::CtcNeverOverflows);
        if self.at_top(old, top) && !(was_blocked && self.bent(Bend::BlockHidesTop)) {
            raised.overflow |= self.bent(Bend::CtcOverflowAtTop);
            self.count = 0;
            self.reach_top(raised);
        } else {
            self.count = self.up(old);
        }
    }

    fn tick_fast(&mut self, old: u32, top: u32, cycle: u64, raised: &mut Raised, log: &mut Log) {
        if !self.at_top(old, top) {
            self.count = self.up(old);
            return;
        }
        self.count = 0;
        raised.overflow = old == self.max() || !self.bent(Bend::FastOverflowAtMax);
        self.reach_top(raised);
        if !self.bent(Bend::FastKeepsCompares) {
            self.load();
        }
        self.bottom(cycle, log);
    }

    fn tick_rising(&mut self, old: u32, top: u32, raised: &mut Raised) {
        if !self.at_top(old, top) {
            self.count = self.up(old);
            return;
        }
        if !self.bent(Bend::TurnRaisesNoCapture) {
            self.reach_top(raised);
        }
        raised.overflow = self.bent(Bend::PhaseOverflowAtTop);
        let rests = self.turn(-1, top) == 0 || self.bent(Bend::TurnRests);
        self.count = if rests { old } else { old.saturating_sub(1) };
    }

    fn tick_falling(&mut self, old: u32, top: u32, raised: &mut Raised) {
        if old != 0 {
            self.count = old - 1;
            return;
        }
        raised.overflow = !self.bent(Bend::PhaseOverflowAtTop);
        let stays = self.turn(1, top) == 0 && !self.bent(Bend::ZeroTopSteps);
        self.count = if stays { 0 } else { 1 };
    }

    /// Turns; P loads where it turns down, Q where it turns up. Answers the TOP that the turn goes by.
    fn turn(&mut self, direction: i32, top: u32) -> u32 {
        self.direction = direction;
        let loads = match self.kind() {
            Kind::P => (direction < 0) != self.bent(Bend::PhaseLoadsAtZero),
            _ => (direction > 0) != self.bent(Bend::FrequencyLoadsAtTop),
        };
        if loads {
            self.load();
        }
        if self.bent(Bend::TopAfterLoad) {
            self.top()
        } else {
            top
        }
    }
}
