//! Lines on the log and on the door.

use super::Generator;
use crate::script::answer::hex;

const LAST_CYCLE: u64 = (1 << 62) - 1;
const LONGEST: u64 = 1 << 40;

const UNREADABLE: [&str; 10] = [
    "log",
    "log add",
    "log add 01",
    "log add 0102030405060708090a0b",
    "log add 0102030405060708090g",
    "log read 6000",
    "log drop 1",
    "door",
    "door two 5 5",
    "door shut 5",
];

impl Generator {
    /// More is added than released, so that the scripts of one input fill the log.
    pub fn log(&mut self) {
        let few = self.rng.below(4);
        let many = self.rng.pick(&[5_999, 6_000, 6_001, u64::MAX]);
        let place = self.rng.pick(&[0, 1, 2, 5_998, 5_999]);
        let line = match self.rng.below(100) {
            0..=79 => return self.add(),
            80..=86 => format!("log release {few}"),
            87 => format!("log release {many}"),
            88..=97 => format!("log read {place}"),
            _ => self.rng.pick(&UNREADABLE).into(),
        };
        self.say(line);
    }

    fn add(&mut self) {
        for _ in 0..=self.rng.below(6) {
            let record: Vec<u8> = (0..10).map(|_| self.rng.byte()).collect();
            self.say(format!("log add {}", hex(&record)));
        }
    }

    /// A rule, and a few edges around what is due.
    pub fn door(&mut self) {
        let [hold, quiet, cap] = [self.cycles(), self.cycles(), self.cycles()];
        let cap = if self.rng.percent(85) { cap.saturating_add(hold) } else { cap };
        if self.rng.percent(60) {
            let rule = if self.rng.percent(40) { format!("one {hold}") } else { format!("two {hold} {quiet} {cap}") };
            self.say(format!("door {rule}"));
        }
        for _ in 0..self.rng.below(8) {
            let (latest, due) = self.play.doors.aim();
            let around = due.saturating_sub(1) + self.rng.below(3);
            let soon = latest + self.rng.below(60);
            let out = self.rng.pick(&[latest.saturating_sub(1), LAST_CYCLE, LAST_CYCLE + 1, u64::MAX]);
            let cycle = self.rng.weighted(&[(60, soon), (30, around), (1, out)]);
            self.say(format!("door edge {cycle}"));
        }
    }

    /// Mostly a few cycles, now and then a border.
    fn cycles(&mut self) -> u64 {
        let few = 1 + self.rng.below(120);
        let border = self.rng.pick(&[0, 1, LONGEST, LONGEST + 1, u64::MAX]);
        self.rng.weighted(&[(30, few), (1, border)])
    }
}
