//! Lines beside the timer: pins, the scheduler, and what cannot be read.

use super::Generator;

const VCC: [&str; 10] = ["5.0", "5.0", "5.0", "3.3", "1.8", "0.1", "0.0", "-5.0", "nan", "inf"];
/// At the thresholds of 5 V, and one step of the last digit beside them.
const THRESHOLDS: [&str; 6] = ["3.0", "1.5", "2.999999999999", "3.000000000001", "1.499999999999", "1.500000000001"];
const VOLTS: [&str; 12] = ["2.0", "0.0", "-0.0", "-1.0", "9.5", "1.98", "0.99", "1.08", "nan", "inf", "-inf", "+1.5"];
const UNREADABLE: [&str; 14] = [
    "frob 1 2",
    "advance 5",
    "advance 5 110 7",
    "advance x 110",
    "advance 18446744073709551616 110",
    "next 5 4097",
    "write 45 1FF 0 110",
    "read 10000 0 110",
    "edge 256 1 0 110",
    "preset m328p.timer9",
    "config id=1",
    "pin vcc=1.2.3",
    "sched at 1 2",
    "state now",
];

impl Generator {
    pub fn pin(&mut self) {
        let mut line = format!("pin vcc={}", self.volts(&VCC));
        let ext = self.rng.pick(&["float", "low", "high", "analog", "analog"]);
        line += &format!(" ext={ext}");
        if ext == "analog" || self.rng.percent(20) {
            let from: &[&str] = if self.rng.percent(50) { &THRESHOLDS } else { &VOLTS };
            line += &format!(" volts={}", self.volts(from));
        }
        for key in ["dir", "out", "pullup", "pulldown", "ove", "ovv", "reserved", "ddoe", "ddov", "level"] {
            let bit = self.rng.weighted(&[(100, 1), (1, 2), (1, 255)]);
            if self.rng.percent(if key == "reserved" || key == "ddoe" { 20 } else { 45 }) {
                line += &format!(" {key}={bit}");
            }
        }
        self.say(line);
    }

    /// One of the list, or any decimal of up to 15 digits.
    fn volts(&mut self, from: &[&str]) -> String {
        if self.rng.percent(80) {
            return self.rng.pick(from).into();
        }
        let digits = self.rng.below(14) as usize + 1;
        format!("{}.{:0digits$}", self.rng.below(8), self.rng.below(10u64.pow(digits as u32)))
    }

    /// Mostly a few keys with equal cycles; now and then all places at once.
    pub fn scheduler(&mut self) {
        if self.rng.percent(3) {
            return self.fill_scheduler();
        }
        let (owner, tag) = (self.rng.below(3), self.rng.below(3));
        let far = self.rng.pick(&[u64::MAX, u64::MAX - 1, 1 << 62]);
        let near = self.rng.below(4);
        let cycle = self.rng.weighted(&[(30, near), (1, far)]);
        let line = match self.rng.below(12) {
            0..=5 => format!("sched at {owner} {tag} {cycle}"),
            6..=7 => format!("sched cancel {owner} {tag}"),
            8 => format!("sched is {owner} {tag}"),
            _ => format!("sched pop {cycle}"),
        };
        self.say(line);
    }

    fn fill_scheduler(&mut self) {
        for tag in 0..66 {
            let cycle = self.rng.below(5);
            self.say(format!("sched at 9 {tag} {cycle}"));
        }
        self.say("sched at 9 5 3".into());
        for _ in 0..self.rng.below(6) {
            let tag = self.rng.below(70);
            self.say(format!("sched cancel 9 {tag}"));
            self.say("sched pop 3".into());
            self.say("sched at 8 1 0".into());
        }
        self.say("sched clear".into());
    }

    pub fn unreadable(&mut self) {
        let line = self.rng.pick(&UNREADABLE);
        self.say(line.into());
        if self.rng.percent(10) {
            self.say("#".repeat(501));
        }
    }
}
