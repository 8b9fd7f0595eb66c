//! The proved timer in place of mcs-sim's own: this file takes the place of crates/mcs-sim/src/avr/peripherals/timer.rs
//! and has its public names. The counting is the library's; here its records become what the machine is told, and its
//! next event is scheduled. TIFR and TIMSK stay with their owner, `IrqFlags`.

use paddlemauve::{
    records, Answer, Call, Capture, Clocks, Compare, Config, Event, Layout, Outcome, Record, Refusal, EVENT,
};

use crate::avr::machine::{Cx, Peripheral, Trigger};
use crate::avr::peripherals::irqflags::update_irqs;

/// What each value of the clock select bits clocks the counter by.
pub type ClockSelect = [Clk; 8];

#[derive(Clone, Copy, Debug, PartialEq, Eq)]
pub enum Clk {
    Stop,
    Div(u32),
    ExtFall,
    ExtRise,
}

/// Timer0 and Timer1; and Timer2, which has no clock pin.
pub const CS_SYNC: ClockSelect =
    [Clk::Stop, Clk::Div(1), Clk::Div(8), Clk::Div(64), Clk::Div(256), Clk::Div(1024), Clk::ExtFall, Clk::ExtRise];
pub const CS_TIMER2: ClockSelect =
    [Clk::Stop, Clk::Div(1), Clk::Div(8), Clk::Div(32), Clk::Div(64), Clk::Div(128), Clk::Div(256), Clk::Div(1024)];

#[derive(Clone, Copy, Debug, PartialEq, Eq)]
pub enum TimerLayout {
    Split,
    Single { wgm: bool },
}

/// FOCnA and FOCnB where they stand in bits 7 and 6.
pub const FOC_STD: (u8, u8) = (0x80, 0x40);

/// TIFR bits; 0 for a unit that the timer lacks.
#[derive(Clone, Copy)]
pub struct TimerBits {
    pub tov: u8,
    pub ocfa: u8,
    pub ocfb: u8,
    pub icf: u8,
}

#[derive(Clone, Copy)]
pub struct CompareC {
    pub ocr: u16,
    pub flag: u8,
    pub vector: u8,
    pub gpio: Option<usize>,
    pub foc: u8,
}

#[derive(Clone)]
pub struct TimerConfig {
    pub name: &'static str,
    pub id: u8,
    pub wide: bool,
    pub layout: TimerLayout,
    pub tccr_a: u16,
    pub tccr_b: u16,
    pub foc_reg: u16,
    pub foc_bits: (u8, u8),
    pub tcnt: u16,
    pub ocr_a: Option<u16>,
    pub ocr_b: Option<u16>,
    pub icr: Option<u16>,
    pub tifr: u16,
    pub timsk: u16,
    pub bits: TimerBits,
    pub v_ovf: u8,
    pub v_comp_a: Option<u8>,
    pub v_comp_b: Option<u8>,
    pub v_capt: Option<u8>,
    pub oc_a_gpio: Option<usize>,
    pub oc_b_gpio: Option<usize>,
    pub c_unit: Option<CompareC>,
    pub icp_gpio: Option<u8>,
    pub t_gpio: Option<u8>,
    pub clock: ClockSelect,
    pub prescaler_group: u8,
    pub prr_mask: u16,
    pub sleep_run: u8,
}

/// The timer's one event.
const EV_TICK: u8 = 0;

/// The library's pins are named by what they are for: OCnA to OCnC are 0 to 2. So one pin of the machine may serve two
/// units.
const ICP: u8 = 3;
const T: u8 = 4;

pub struct Timer {
    c: TimerConfig,
    irq_map: [(u8, u8); 5],
    timer: paddlemauve::Timer,
    /// The latest cycle that the timer was told.
    latest: u64,
}

impl Timer {
    /// # Panics
    /// Where the configuration breaks a rule of the library: refusal 1.
    pub fn new(c: TimerConfig) -> Self {
        let b = c.bits;
        let (fc, vc) = c.c_unit.map_or((0, 0), |u| (u.flag, u.vector));
        let irq_map = [
            (b.tov, c.v_ovf),
            (b.ocfa, c.v_comp_a.unwrap_or(0)),
            (b.ocfb, c.v_comp_b.unwrap_or(0)),
            (b.icf, c.v_capt.unwrap_or(0)),
            (fc, vc),
        ];
        let timer = fresh(&c);
        Self { c, irq_map, timer, latest: 0 }
    }

    /// The registers that it owns, with their masks for SBI and CBI.
    pub fn registers(&self) -> Vec<(u16, u8)> {
        let c = &self.c;
        let mut addresses = vec![c.tccr_a, c.tcnt];
        addresses.extend((c.tccr_b != c.tccr_a).then_some(c.tccr_b));
        for low in [c.ocr_a, c.ocr_b, c.c_unit.map(|u| u.ocr)].into_iter().flatten() {
            addresses.push(low);
            addresses.extend(c.wide.then_some(low + 1));
        }
        addresses.extend(c.wide.then_some(c.tcnt + 1));
        addresses.extend(c.icr.into_iter().flat_map(|low| [low, low + 1]));
        addresses.extend((c.foc_reg != c.tccr_a && c.foc_reg != c.tccr_b).then_some(c.foc_reg));
        addresses.into_iter().map(|a| (a, 0)).collect()
    }

    /// Flag bit and vector of each source, for the owner of TIFR and TIMSK.
    pub fn irq_map(&self) -> Vec<(u8, u8)> {
        self.irq_map.iter().copied().filter(|e| e.0 != 0).collect()
    }

    /// A call on the library, with all that is due by its cycle before it. One that the machine tells late is worked at
    /// the latest cycle. What else could be refused is passed over: a foreign address, which reads 0, and what a
    /// machine whose CPU sleeps does not do (7).
    fn ask(&mut self, call: Call, cycle: u64, cx: &mut Cx) -> u8 {
        self.latest = self.latest.max(cycle);
        let mut area = [0; 8 * EVENT];
        loop {
            let Outcome { answer, written, .. } = self.timer.call(call, self.latest, &mut area);
            self.tell(&area[..written], cx);
            match answer {
                Answer::Paused(..) => (),
                Answer::Refused(Refusal::EventDue) => {
                    self.ask(Call::Advance, cycle, cx);
                    self.schedule(cx);
                }
                Answer::Value(byte) => return byte,
                _ => return 0,
            }
        }
    }

    /// A call that may move the next event.
    fn change(&mut self, call: Call, cycle: u64, cx: &mut Cx) {
        self.ask(call, cycle, cx);
        self.schedule(cx);
    }

    /// The next event to the machine's scheduler. One that is due already stands there.
    fn schedule(&mut self, cx: &mut Cx) {
        match self.timer.next(self.latest) {
            Ok(Some(next)) => cx.schedule(EV_TICK, next.cycle),
            Ok(None) => cx.cancel(EV_TICK),
            Err(_) => (),
        }
    }

    /// What records say, to the machine.
    fn tell(&self, written: &[u8], cx: &mut Cx) {
        let id = self.c.id;
        for Record { cycle, event } in records(written) {
            match event {
                Event::Pin { pin, enable, value } => self.drive(pin, enable as u8, value as u8, cycle, cx),
                Event::Flags { raised, .. } => {
                    cx.cpu.data[self.c.tifr as usize] |= raised;
                    update_irqs(cx, self.c.tifr, self.c.timsk, &self.irq_map);
                }
                // No record of a timer's.
                Event::Watchdog { .. } => (),
                Event::Trigger { trigger, .. } => {
                    let trigger = match trigger {
                        1 => Trigger::TimerCompA(id),
                        2 => Trigger::TimerCompB(id),
                        3 => Trigger::TimerOvf(id),
                        _ => Trigger::TimerCapt(id),
                    };
                    cx.sys.trigger(trigger, 1, cycle);
                }
            }
        }
    }

    /// A channel's pin takes its override.
    fn drive(&self, channel: u8, enable: u8, value: u8, cycle: u64, cx: &mut Cx) {
        let pins = [self.c.oc_a_gpio, self.c.oc_b_gpio, self.c.c_unit.and_then(|u| u.gpio)];
        let Some(gpio) = pins[channel as usize] else {
            return;
        };
        let p = &mut cx.sys.pins[gpio];
        if p.ov_enable != enable || p.ov_value != value {
            p.ov_enable = enable;
            p.ov_value = value;
            cx.sys.update_pin(gpio, cycle);
        }
    }
}

/// A fresh timer of the library.
fn fresh(c: &TimerConfig) -> paddlemauve::Timer {
    let unit = |address: Option<u16>, flag, force, pin: Option<u8>| match address {
        Some(address) => Compare::at(address, flag, force, pin),
        None => Compare::ABSENT,
    };
    let config = Config {
        id: c.id,
        wide: c.wide,
        layout: match c.layout {
            TimerLayout::Split => Layout::Split,
            TimerLayout::Single { wgm: true } => Layout::Single,
            TimerLayout::Single { wgm: false } => Layout::Bare,
        },
        tccra: c.tccr_a,
        tccrb: c.tccr_b,
        foc: c.foc_reg,
        tcnt: c.tcnt,
        a: unit(c.ocr_a, c.bits.ocfa, c.foc_bits.0, c.oc_a_gpio.map(|_| 0)),
        b: unit(c.ocr_b, c.bits.ocfb, c.foc_bits.1, c.oc_b_gpio.map(|_| 1)),
        c: c.c_unit.map_or(Compare::ABSENT, |u| Compare::at(u.ocr, u.flag, u.foc, u.gpio.map(|_| 2))),
        icr: c.icr.map_or(Capture::ABSENT, |low| Capture::at(low, c.bits.icf, c.icp_gpio.map(|_| ICP))),
        tov: c.bits.tov,
        t: c.t_gpio.map(|_| T),
        clocks: match c.clock {
            CS_SYNC => Clocks::Sync,
            CS_TIMER2 => Clocks::Timer2,
            _ => panic!("{}: its clock select is neither of the two tables that the proved timer has", c.name),
        },
        group: c.prescaler_group,
        prr: c.prr_mask,
        sleeprun: c.sleep_run,
    };
    paddlemauve::Timer::new(&config)
        .unwrap_or_else(|why| panic!("{}: the proved timer takes no such configuration: {why}", c.name))
}

impl Peripheral for Timer {
    fn name(&self) -> &str {
        self.c.name
    }

    fn read(&mut self, addr: u16, cx: &mut Cx) -> u8 {
        self.ask(Call::Read(addr), cx.now(), cx)
    }

    fn peek(&mut self, addr: u16, cx: &mut Cx) -> u8 {
        self.ask(Call::Peek(addr), cx.now(), cx)
    }

    fn write(&mut self, addr: u16, v: u8, cx: &mut Cx) {
        self.change(Call::Write(addr, v), cx.now(), cx);
    }

    fn on_event(&mut self, _tag: u8, cycle: u64, cx: &mut Cx) {
        self.change(Call::Advance, cycle, cx);
    }

    fn on_pin(&mut self, pin: u8, level: u8, cycle: u64, cx: &mut Cx) {
        for (unit, gpio) in [(ICP, self.c.icp_gpio), (T, self.c.t_gpio)] {
            if gpio == Some(pin) {
                self.ask(Call::Edge { pin: unit, level }, cycle, cx);
            }
        }
    }

    fn on_trigger(&mut self, trigger: Trigger, value: u8, cycle: u64, cx: &mut Cx) {
        let now = cx.now();
        match trigger {
            Trigger::AcOutput => {
                self.ask(Call::Output((value == 1) as u8), cycle, cx);
            }
            Trigger::AcCapture => {
                self.ask(Call::Route((value != 0) as u8), cycle, cx);
            }
            Trigger::TimerSync => self.change(Call::Tsm((value != 0) as u8), now, cx),
            Trigger::PrescalerReset => self.change(Call::Prescale(value), now, cx),
            _ => (),
        }
    }

    fn on_power_reduction(&mut self, prr: u16, cx: &mut Cx) {
        self.change(Call::Reduce(prr), cx.now(), cx);
    }

    fn on_sleep(&mut self, mode: u8, cx: &mut Cx) {
        self.change(Call::Sleep(mode), cx.now(), cx);
    }

    fn on_wake(&mut self, cx: &mut Cx) {
        self.change(Call::Wake, cx.now(), cx);
    }

    /// The machine's cycles may begin again here, so the timer is a fresh one.
    fn reset(&mut self, cx: &mut Cx) {
        self.timer = fresh(&self.c);
        self.latest = cx.now();
        self.change(Call::Reset, self.latest, cx);
        for channel in 0..3 {
            self.drive(channel, 0, 0, self.latest, cx);
        }
        update_irqs(cx, self.c.tifr, self.c.timsk, &self.irq_map);
    }

    fn inspect(&mut self, cx: &mut Cx) -> Vec<(String, String)> {
        self.change(Call::Advance, cx.now(), cx);
        let t = self.timer.state();
        let n = self.c.id;
        let clk = self.c.clock[(t.tccrb & 7) as usize];
        let clock = match clk {
            Clk::Stop => "Stopped".to_string(),
            Clk::ExtFall => format!("T{n} pin (falling)"),
            Clk::ExtRise => format!("T{n} pin (rising)"),
            Clk::Div(d) => format!("clk/{d}"),
        };
        let state = match (t.reduced, t.asleep, t.tsm, clk) {
            (true, ..) => "Power reduced",
            (_, true, ..) => "Halted (sleep)",
            (_, _, true, _) => "Halted (TSM)",
            (.., Clk::Stop) => "Stopped",
            _ => "Running",
        };
        let (mode, name, top) = mode(&self.c, &t);
        let name = name.replace("OCRnA", &format!("OCR{n}A")).replace("ICRn", &format!("ICR{n}"));
        let mut shown = vec![
            ("Mode".to_string(), format!("{mode}: {name}")),
            ("Clock".to_string(), clock),
            ("State".to_string(), state.to_string()),
            (format!("TCNT{n}"), t.count.to_string()),
            ("TOP".to_string(), top.to_string()),
            ("Direction".to_string(), if t.direction > 0 { "Up" } else { "Down" }.to_string()),
        ];
        // A timer with one channel has no letter for it.
        let a = if self.c.ocr_b.is_none() { "" } else { "A" };
        let present = [self.c.ocr_a.is_some(), self.c.ocr_b.is_some(), self.c.c_unit.is_some()];
        for (ch, letter) in [a, "B", "C"].into_iter().enumerate().filter(|&(ch, _)| present[ch]) {
            shown.push((format!("OCR{n}{letter} (active)"), t.ocr[ch].to_string()));
            shown.push((format!("OC{n}{letter}"), t.oc[ch].to_string()));
        }
        if self.c.wide {
            shown.push(("TEMP".to_string(), format!("0x{:02X}", t.temp)));
        }
        shown
    }

    fn as_any_mut(&mut self) -> &mut dyn std::any::Any {
        self
    }
}

/// The mode's number, its name, and TOP.
fn mode(c: &TimerConfig, t: &paddlemauve::State) -> (u8, &'static str, u32) {
    let number = (t.tccrb >> 1) & if c.wide { 0x0c } else { 0x04 } | t.tccra & 3;
    let [a, icr] = [t.ocr[0], t.icr];
    let (name, top) = match (c.wide, number) {
        (true, 0) => ("Normal", 0xffff),
        (true, 1) => ("PWM, Phase Correct, 8-bit", 0xff),
        (true, 2) => ("PWM, Phase Correct, 9-bit", 0x1ff),
        (true, 3) => ("PWM, Phase Correct, 10-bit", 0x3ff),
        (true, 4) => ("CTC (TOP=OCRnA)", a),
        (true, 5) => ("Fast PWM, 8-bit", 0xff),
        (true, 6) => ("Fast PWM, 9-bit", 0x1ff),
        (true, 7) => ("Fast PWM, 10-bit", 0x3ff),
        (true, 8) => ("PWM, Phase & Freq Correct (TOP=ICRn)", icr),
        (true, 9) => ("PWM, Phase & Freq Correct (TOP=OCRnA)", a),
        (true, 10) => ("PWM, Phase Correct (TOP=ICRn)", icr),
        (true, 11) => ("PWM, Phase Correct (TOP=OCRnA)", a),
        (true, 12) => ("CTC (TOP=ICRn)", icr),
        (true, 13) => ("Reserved", 0xffff),
        (true, 14) => ("Fast PWM (TOP=ICRn)", icr),
        (true, _) => ("Fast PWM (TOP=OCRnA)", a),
        (_, 0) => ("Normal", 0xff),
        (_, 1) => ("PWM, Phase Correct", 0xff),
        (_, 2) => ("CTC (TOP=OCRnA)", a),
        (_, 3) => ("Fast PWM", 0xff),
        (_, 5) => ("PWM, Phase Correct (TOP=OCRnA)", a),
        (_, 7) => ("Fast PWM (TOP=OCRnA)", a),
        _ => ("Reserved", 0xff),
    };
    (number, name, top)
}
