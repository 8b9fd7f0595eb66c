//! Lists of register writes: in a line's own digits, and made up by `item` lines.

use super::cycles::{self, Reach};
use super::{values, Generator};
use crate::lists::Item;
use crate::script::answer::hex;

const LAST_CYCLE: u64 = (1 << 62) - 1;

const UNREADABLE: [&str; 7] = [
    "writes",
    "writes 110 - -",
    "writes 4097 -",
    "writes 110 123",
    "writes 110 1x",
    "item 400 0 0",
    "item 45 01 4611686018427387904",
];

impl Generator {
    /// A list as the line's own digits; sometimes a byte short, or none.
    pub fn writes(&mut self) {
        let items = self.rng.below(8) as usize;
        let mut bytes: Vec<u8> = self.list(items).into_iter().flat_map(Item::bytes).collect();
        if self.rng.percent(8) {
            bytes.pop();
        }
        let area = cycles::area(&mut self.rng);
        self.listed(format!("writes {area} {}", hex(&bytes)));
    }

    /// A list made up by lines, now and then one too many, and what works it.
    pub fn items(&mut self) {
        if self.rng.percent(10) {
            let line = self.rng.pick(&UNREADABLE);
            return self.say(line.into());
        }
        let items = if self.rng.percent(1) { 402 } else { self.rng.below(30) as usize };
        for Item { address, value, cycle } in self.list(items) {
            self.say(format!("item {address:X} {value:x} {cycle}"));
        }
        if self.rng.percent(80) {
            let area = cycles::area(&mut self.rng).max(self.rng.pick(&[0, 110, 4096]));
            self.listed(format!("writes {area}"));
        }
    }

    /// Items at rising cycles from an aimed one on, on the timer's registers; a few go back, or name no register.
    fn list(&mut self, items: usize) -> Vec<Item> {
        let Some(view) = self.play.side.view() else {
            return vec![Item { address: 0x45, value: 1, cycle: 5 }; items];
        };
        let rng = &mut self.rng;
        let c = view.config;
        let counted = [Some(c.tcnt), c.ocra, c.ocrb, c.c.map(|u| u.ocr), c.icr].into_iter().flatten();
        let registers: Vec<u16> =
            counted.flat_map(|low| [low, low + c.wide as u16]).chain([c.tccra, c.tccrb]).collect();
        // An item has room for 62 bits; where the aim is past them, the timer would have to be worked up to there.
        let aim = cycles::cycle(rng, &view, Reach::Over);
        let mut cycle = if aim > LAST_CYCLE { view.latest } else { aim };
        let mut item = || {
            let ahead = rng.pick(&[0, 0, 1, 7, 64, 900]);
            cycle = if rng.percent(2) { cycle.saturating_sub(2) } else { cycle + rng.below(ahead + 1) };
            let stray = rng.next() as u16;
            let address = rng.pick(&registers);
            let address = rng.weighted(&[(60, address), (1, stray)]);
            let (a, b) = values::controls(rng, &view);
            let value = match address {
                at if at == c.tccra => a,
                at if at == c.tccrb => b,
                _ => values::count(rng, &view) as u8,
            };
            Item { address: address & 0x3ff, value, cycle: cycle.min(LAST_CYCLE) }
        };
        (0..items).map(|_| item()).collect()
    }

    fn listed(&mut self, line: String) {
        self.say(line);
        self.say("state".into());
        self.say("distance".into());
    }
}
