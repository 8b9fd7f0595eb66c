//! Time passing tick by tick, and the work of each call.

use super::bends::Bend;
use super::log::Log;
use super::timer::Timer;
use crate::script::Call;

impl Timer {
    /// Works singly each tick after the sync cycle up to `cycle`, which is then the sync cycle.
    pub fn pass(&mut self, cycle: u64, log: &mut Log) {
        if let Some(divisor) = self.divisor() {
            let mut at = self.next_tick(divisor);
            if at > cycle && self.bent(Bend::NoTickUnblocks) {
                self.blocked = false;
            }
            while at <= cycle {
                self.tick(at, log);
                at += divisor;
            }
        }
        self.sync = cycle;
    }

    /// As `pass`, but stops before the first tick whose records do not fit; then answers the sync cycle.
    pub fn advance(&mut self, cycle: u64, room: usize, log: &mut Log) -> Option<u64> {
        if let Some(divisor) = self.divisor() {
            let mut at = self.next_tick(divisor);
            while at < cycle || at == cycle && !self.bent(Bend::AdvanceStopsShort) {
                let mut after = self.clone();
                let mut records = Log::default();
                after.tick(at, &mut records);
                let wanted = if self.bent(Bend::PauseNeedsWhole) { 110 } else { records.bytes.len() };
                if log.bytes.len() + wanted > room && !records.bytes.is_empty() {
                    let stands = if self.bent(Bend::PauseAtTick) { at } else { at - divisor };
                    self.sync = self.sync.max(stands);
                    return Some(self.sync);
                }
                log.bytes.extend(records.bytes);
                *self = after;
                at += divisor;
            }
        }
        self.sync = cycle;
        None
    }

    /// The work of every call but an advance; a read, a peek or a flag read answers a value.
    pub fn work(&mut self, call: Call, cycle: u64, log: &mut Log) -> Option<u8> {
        let register = |timer: &Timer, address| timer.setup.register(address).expect("an address that is owned");
        match call {
            Call::Advance | Call::Next => {}
            Call::Reset => self.reset(cycle, log),
            Call::Wake => self.wake(cycle),
            Call::Read(address) => return Some(self.read(register(self, address), cycle, log)),
            Call::Peek(address) => return Some(self.peek(register(self, address), cycle, log)),
            Call::Write(address, value) => self.write(register(self, address), value, cycle, log),
            Call::Tifr => return Some(self.tifr),
            Call::Timsk => return Some(self.timsk),
            Call::WriteTifr(value) => self.write_tifr(value, cycle, log),
            Call::WriteTimsk(value) => self.write_timsk(value),
            Call::Edge { pin, level } => self.edge(pin, level, cycle, log),
            Call::Route(level) => self.route(level),
            Call::AcOut(level) => self.comparator(level, cycle, log),
            Call::Sleep(mode) => self.sleep(mode, cycle, log),
            Call::Prr(mask) => self.reduce_power(mask, cycle, log),
            Call::Tsm(level) => self.set_tsm(level, cycle, log),
            Call::Presc(mask) => self.reset_prescaler(mask, cycle, log),
        }
        None
    }
}
