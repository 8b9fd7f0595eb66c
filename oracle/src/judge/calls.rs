//! Each call as the Rust takes it.

use mcs::irqflags::{IrqFlags, IrqFlagsConfig};
use mcs::machine::{Cx, Peripheral, Trigger, TIFR, TIMSK};
use mcs::timer::{Timer, EVENT};

use super::bench::Bench;
use super::Follow;
use crate::script::Call;

impl Bench {
    /// A call handed to the Rust.
    pub fn call(&mut self, call: Call, cycle: u64, follow: Follow) -> Option<u8> {
        let tell = |bench: &mut Bench, trigger, value| {
            bench.with(cycle, |timer, cx| timer.on_trigger(trigger, value, cycle, cx))
        };
        match call {
            Call::Advance => self.with(cycle, |timer, cx| timer.on_event(EVENT, cycle, cx)),
            Call::Next => self.cpu.cycles = cycle,
            Call::Reset => self.with(cycle, |timer, cx| timer.reset(cx)),
            Call::Wake => self.with(cycle, |timer, cx| timer.on_wake(cx)),
            Call::Read(addr) => return Some(self.with(cycle, |timer, cx| read(timer, addr, follow, cx))),
            Call::Peek(addr) => return Some(self.with(cycle, |timer, cx| timer.peek(addr, cx))),
            Call::Write(addr, value) => self.with(cycle, |timer, cx| timer.write(addr, value, cx)),
            Call::Tifr => return Some(self.with(cycle, |timer, cx| flags(timer, follow).read(TIFR, cx))),
            Call::Timsk => return Some(self.with(cycle, |timer, cx| flags(timer, follow).read(TIMSK, cx))),
            Call::WriteTifr(value) => self.with(cycle, |timer, cx| flags(timer, follow).write(TIFR, value, cx)),
            Call::WriteTimsk(value) => self.with(cycle, |timer, cx| flags(timer, follow).write(TIMSK, value, cx)),
            Call::Edge { pin, level } => self.with(cycle, |timer, cx| timer.on_pin(pin, level, cycle, cx)),
            Call::Route(level) => tell(self, Trigger::AcCapture, level),
            Call::AcOut(level) => tell(self, Trigger::AcOutput, level),
            Call::Sleep(mode) => self.with(cycle, |timer, cx| timer.on_sleep(mode, cx)),
            Call::Prr(mask) => self.with(cycle, |timer, cx| timer.on_power_reduction(mask, cx)),
            Call::Tsm(level) => tell(self, Trigger::TimerSync, level),
            Call::Presc(mask) => tell(self, Trigger::PrescalerReset, mask),
        }
        None
    }
}

/// A register as a program reads it. By the sheet a compare passes TEMP by: the Rust reads it with the compare's own high byte in
/// TEMP, which is then put back.
fn read(timer: &mut Timer, addr: u16, follow: Follow, cx: &mut Cx) -> u8 {
    let Some(compare) = timer.compare(addr).filter(|_| follow == Follow::Sheet) else {
        return timer.read(addr, cx);
    };
    let temp = timer.inside().temp;
    timer.fill_temp((compare >> 8) as u8);
    let value = timer.read(addr, cx);
    timer.fill_temp(temp);
    value
}

/// The Rust's owner of TIFR and TIMSK. It keeps the timer's own bits of TIMSK; for the sheet a further
/// source on vector 0 makes it keep all eight.
fn flags(timer: &Timer, follow: Follow) -> IrqFlags {
    let mut map = timer.irq_map();
    if follow == Follow::Sheet {
        map.push((0xff, 0));
    }
    IrqFlags::new(IrqFlagsConfig { name: "flags", flag_reg: TIFR, mask_reg: TIMSK, map })
}
