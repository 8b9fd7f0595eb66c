//! What timer.rs and irqflags.rs tell a machine, and are called by, whichever machine stands in.

use super::Cx;

/// The override of a pin by a compare output, as timer.rs uses it.
#[derive(Clone, Copy, Default)]
pub struct Override {
    pub ov_enable: u8,
    pub ov_value: u8,
}

#[derive(Clone, Copy, Debug, PartialEq, Eq)]
pub enum Trigger {
    TimerCompA(u8),
    TimerCompB(u8),
    TimerOvf(u8),
    TimerCapt(u8),
    AcOutput,
    AcCapture,
    PrescalerReset,
    TimerSync,
    GtccrStrobe,
}

/// The calls of a peripheral that the timer or the flag registers answer.
#[allow(unused_variables)]
pub trait Peripheral: Send {
    fn name(&self) -> &str;
    fn reset(&mut self, cx: &mut Cx);
    fn read(&mut self, addr: u16, cx: &mut Cx) -> u8 {
        cx.cpu.data[addr as usize]
    }
    fn write(&mut self, addr: u16, value: u8, cx: &mut Cx) {
        cx.cpu.data[addr as usize] = value;
    }
    fn peek(&mut self, addr: u16, cx: &mut Cx) -> u8 {
        cx.cpu.data[addr as usize]
    }
    fn on_event(&mut self, tag: u8, cycle: u64, cx: &mut Cx) {}
    fn ack(&mut self, vector: u8, cx: &mut Cx) {}
    fn on_pin(&mut self, pin: u8, level: u8, cycle: u64, cx: &mut Cx) {}
    fn on_trigger(&mut self, trigger: Trigger, value: u8, cycle: u64, cx: &mut Cx) {}
    fn on_power_reduction(&mut self, prr: u16, cx: &mut Cx) {}
    fn on_sleep(&mut self, mode: u8, cx: &mut Cx) {}
    fn on_wake(&mut self, cx: &mut Cx) {}
    fn inspect(&mut self, cx: &mut Cx) -> Vec<(String, String)> {
        Vec::new()
    }
    fn as_any_mut(&mut self) -> &mut dyn std::any::Any;
}
