//! Moves on the timer: one call, or a few that belong together.

use super::cycles::{self, Reach};
use super::values;
use super::Generator;
use crate::script::Config;

impl Generator {
    /// One move, aimed by the state.
    pub fn timer_move(&mut self) {
        let Some(view) = self.view() else {
            return self.aimless();
        };
        let held = view.inside.sleep_halted || view.inside.power_reduced || view.inside.tsm;
        let stopped = view.inside.divisor == 0;
        let clock = view.inside.tccr_b & 7;
        // A timer that stands still shows little: most moves there set it going again.
        match self.rng.below(100) {
            0..=24 if held => return self.release(),
            25..=39 if held => return self.halt(),
            40..=54 if held => return self.edge(),
            0..=49 if stopped && clock >= 6 => return self.edge(),
            0..=39 if stopped && clock == 0 => return self.write_control(),
            _ => {}
        }
        match self.rng.below(105) {
            100..=104 | 0..=23 => self.call("advance", Reach::Over),
            24..=35 => self.write_control(),
            36..=53 => self.write_count(),
            54..=63 => self.read(),
            64..=69 => self.peek(),
            70..=71 => self.call("next", Reach::Before),
            72..=77 => self.flags(),
            78..=85 => self.edge(),
            86..=89 => self.comparator(),
            90..=96 => self.halt(),
            97 => self.call("reset", Reach::Anywhere),
            _ => self.foreign(),
        }
    }

    /// Ends the words with a cycle and an area, and shows state and distance after the call, and now and then a shift.
    fn call(&mut self, words: &str, reach: Reach) {
        let (cycle, area) = match self.play.side.view() {
            Some(view) => (cycles::cycle(&mut self.rng, &view, reach), cycles::area(&mut self.rng)),
            None => (self.rng.below(100), 110),
        };
        self.say(format!("{words} {cycle} {area}"));
        self.say("state".into());
        self.say("distance".into());
        if self.aside.percent(25) {
            self.shift();
        }
    }

    /// A call where there is no timer yet.
    fn aimless(&mut self) {
        let words = self.rng.pick(&["advance", "read 46", "wake", "tsm 1", "next"]);
        self.call(words, Reach::Before);
    }

    fn config(&self) -> Config {
        self.view().expect("a move is made on a timer").config.clone()
    }

    /// The low addresses of the counted registers.
    fn counted(&self) -> Vec<u16> {
        let c = self.config();
        [Some(c.tcnt), c.ocra, c.ocrb, c.c.map(|u| u.ocr), c.icr].into_iter().flatten().collect()
    }

    /// Whether the Rust reads an address through TEMP and the sheet without (02, 2.5): such a read is left out.
    fn left_out(&self, address: u16) -> bool {
        let c = self.config();
        let compares = [c.ocra, c.ocrb, c.c.map(|u| u.ocr)];
        c.wide && compares.into_iter().flatten().any(|low| [low, low + 1].contains(&address))
    }

    fn write_control(&mut self) {
        let c = self.config();
        let view = self.play.side.view().expect("a move is made on a timer");
        let (a, b) = values::controls(&mut self.rng, &view);
        match self.rng.below(10) {
            0..=3 => self.call(&format!("write {:X} {a:X}", c.tccra), Reach::Before),
            4..=6 => self.call(&format!("write {:X} {b:X}", c.tccrb), Reach::Before),
            7 => {
                let strobe = self.rng.byte();
                self.call(&format!("write {:X} {strobe:x}", c.foc), Reach::Before);
            }
            _ => {
                self.call(&format!("write {:X} {a:X}", c.tccra), Reach::Before);
                self.call(&format!("write {:X} {b:X}", c.tccrb), Reach::Before);
            }
        }
    }

    /// A count, a compare or ICR; of a wide timer the high byte first, but not always.
    fn write_count(&mut self) {
        let counted = self.counted();
        let address = self.rng.pick(&counted);
        let view = self.play.side.view().expect("a move is made on a timer");
        let value = values::count(&mut self.rng, &view);
        if view.config.wide && self.rng.percent(85) {
            self.call(&format!("write {:X} {:X}", address + 1, value >> 8), Reach::Past);
        }
        self.call(&format!("write {address:X} {:X}", value & 0xff), Reach::Before);
    }

    fn read(&mut self) {
        let c = self.config();
        let readable: Vec<u16> = self.counted().into_iter().filter(|&low| !self.left_out(low)).collect();
        let low = self.rng.pick(&readable);
        let control = self.rng.pick(&[c.tccra, c.tccrb, c.foc]);
        match self.rng.below(10) {
            0..=1 => self.call(&format!("read {control:X}"), Reach::Before),
            2 if c.wide => self.call(&format!("read {:X}", low + 1), Reach::Past),
            3..=6 if c.wide => {
                let other = self.rng.pick(&readable);
                self.call(&format!("read {low:X}"), Reach::Before);
                self.call(&format!("read {:X}", other + 1), Reach::Past);
            }
            _ => self.call(&format!("read {low:X}"), Reach::Before),
        }
    }

    fn peek(&mut self) {
        let c = self.config();
        let counted = self.counted();
        let low = self.rng.pick(&counted);
        let high = if c.wide { low + 1 } else { low };
        let address = self.rng.pick(&[low, high, c.tccra, c.tccrb, c.foc]);
        self.call(&format!("peek {address:X}"), Reach::Before);
    }

    fn flags(&mut self) {
        let value = self.rng.byte() & self.rng.pick(&[0xff, 0x27, 0x0f]);
        let words = match self.rng.below(7) {
            0 => "tifr".into(),
            1 => "timsk".into(),
            2..=4 => format!("wtifr {value:x}"),
            _ => format!("wtimsk {value:X}"),
        };
        self.call(&words, Reach::Before);
    }

    fn level(&mut self) -> u64 {
        if self.rng.percent(98) {
            self.rng.below(2)
        } else {
            self.rng.pick(&[2, 255])
        }
    }

    fn edge(&mut self) {
        let c = self.config();
        let stray = Some(self.rng.byte());
        let pins: Vec<u8> = [c.t, c.t, c.icp, c.icp, c.icp, c.pina, stray].into_iter().flatten().collect();
        let (pin, level) = (self.rng.pick(&pins), self.level());
        self.call(&format!("edge {pin} {level}"), Reach::Before);
    }

    fn comparator(&mut self) {
        let name = self.rng.weighted(&[(1, "route"), (2, "acout")]);
        let level = self.level();
        self.call(&format!("{name} {level}"), Reach::Before);
    }

    fn halt(&mut self) {
        let c = self.config();
        let level = self.level();
        let words = match self.rng.below(10) {
            0..=2 => {
                let stray = self.rng.pick(&[8, 255]);
                let mode = self.rng.below(8);
                format!("sleep {}", self.rng.weighted(&[(40, mode), (1, stray)]))
            }
            3..=4 => format!("prr {:X}", self.rng.pick(&[c.prr, c.prr, 0, 0x10])),
            5..=6 => format!("tsm {level}"),
            7 => "wake".into(),
            _ => format!("presc {:x}", self.rng.pick(&[c.group, c.group, 1, 4, 0])),
        };
        self.call(&words, Reach::Before);
    }

    fn release(&mut self) {
        let words = self.rng.pick(&["wake", "wake", "prr 0", "tsm 0"]);
        self.call(words, Reach::Before);
    }

    /// Addresses beside the owned ones.
    fn foreign(&mut self) {
        let counted = self.counted();
        let beside = self.rng.pick(&counted) + self.rng.below(3) as u16;
        let address = self.rng.pick(&[beside, 0, 0x1ff, 0x200, 0xffff]);
        let names = if self.left_out(address) { &["peek", "write"][..] } else { &["read", "peek", "write"] };
        let name = self.rng.pick(names);
        let value = if name == "write" { " 7" } else { "" };
        self.call(&format!("{name} {address:X}{value}"), Reach::Before);
    }
}
