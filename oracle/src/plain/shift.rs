//! How far a late edge moves the capture (02, 2.9): the ticks between two cycles, counted one by one.

use super::bends::Bend;
use super::timer::Timer;
use crate::script::Answer;

impl Timer {
    pub fn shift(&self, first: u64, second: u64) -> Answer {
        let edges = if self.bent(Bend::SecondEdgeFirst) { [second, first] } else { [first, second] };
        if let Some(number) = edges.iter().find_map(|&cycle| self.late(cycle)) {
            return Answer::Refused(number);
        }
        let Some(divisor) = self.divisor() else {
            return Answer::Shift(0);
        };
        let most = if self.bent(Bend::FarEdgesShift) { 32_768 } else { 32_767 } * divisor;
        if first.abs_diff(second) >= most {
            return Answer::Refused(18);
        }
        let ticks = self.ticks_between(first.min(second), first.max(second), divisor);
        Answer::Shift(if second < first && !self.bent(Bend::ShiftUnsigned) { -ticks } else { ticks })
    }

    /// From tick to tick, the first one as soon as the prescaler has gone round.
    fn ticks_between(&self, from: u64, to: u64, divisor: u64) -> i64 {
        let mut at = from + divisor - (from - self.origin) % divisor;
        let mut ticks = 0;
        while at < to || at == to && !self.bent(Bend::EdgeBeforeTick) {
            ticks += 1;
            at += divisor;
        }
        ticks
    }
}
