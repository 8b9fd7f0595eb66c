//! Numbers 2 to 7, tested on the counter's own state.

use super::bends::Bend;
use super::setup::Register;
use super::timer::Timer;
use crate::script::Call;

impl Timer {
    /// 2 or 3, which are of the cycle alone.
    pub fn late(&self, cycle: u64) -> Option<u8> {
        let most = if self.bent(Bend::LastCycleRefused) { (1 << 62) - 2 } else { (1 << 62) - 1 };
        if cycle > most {
            return Some(2);
        }
        (cycle < self.latest).then_some(3)
    }

    /// The first number that turns the call away.
    pub fn refusal(&self, call: Call, cycle: u64) -> Option<u8> {
        let back = call == Call::Reset && self.bent(Bend::ResetLowersLatest);
        if let Some(number) = self.late(cycle).filter(|&n| n != 3 || !back) {
            return Some(number);
        }
        let unknown = named(call).is_some_and(|address| self.setup.register(address).is_none());
        if unknown && !self.bent(Bend::AddressRefusedLate) {
            return Some(4);
        }
        if self.out_of_range(call) {
            return Some(5);
        }
        if self.past_event(call, cycle) {
            return Some(6);
        }
        if unknown {
            return Some(4);
        }
        (self.asleep.is_some() && self.meddles(call)).then_some(7)
    }

    fn out_of_range(&self, call: Call) -> bool {
        match call {
            Call::Edge { level, .. } => level > 1,
            Call::Route(level) => level > 1,
            Call::AcOut(level) => level > 1,
            Call::Tsm(level) => level > 1,
            Call::Sleep(mode) => mode > if self.bent(Bend::SleepSevenRefused) { 6 } else { 7 },
            _ => false,
        }
    }

    fn past_event(&self, call: Call, cycle: u64) -> bool {
        let flags = matches!(call, Call::Tifr | Call::Timsk | Call::WriteTifr(_) | Call::WriteTimsk(_));
        let free = match call {
            Call::Advance | Call::Reset => true,
            Call::Read(address) | Call::Write(address, _) => {
                matches!(self.setup.register(address), Some(Register::High(_))) && !self.bent(Bend::HighByteRefused)
            }
            _ => flags && self.bent(Bend::FlagCallsAllowed),
        };
        let Some(event) = self.next_event().filter(|_| !free) else {
            return false;
        };
        event < cycle || event == cycle && !self.bent(Bend::EventAllowed)
    }

    /// What a sleeping timer cannot be told.
    fn meddles(&self, call: Call) -> bool {
        match call {
            Call::Presc(mask) => self.in_group(mask),
            Call::Tsm(level) => (level == 1) != self.tsm && !self.bent(Bend::SleepTsmAllowed),
            Call::Sleep(mode) => self.halts_in(mode),
            _ => false,
        }
    }
}

fn named(call: Call) -> Option<u16> {
    match call {
        Call::Read(address) => Some(address),
        Call::Peek(address) => Some(address),
        Call::Write(address, _) => Some(address),
        _ => None,
    }
}
