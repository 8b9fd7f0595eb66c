//! Random scripts of `board` lines: all three timers running, TSM set and released, sleep and power reduction over timers that stand
//! apart, orders that one of the three refuses, and areas that pause.

use super::cycles::{self, Reach};
use super::rng::Rng;
use super::values;
use crate::judge::{Follow, Judge, View};
use crate::script::{Config, Play};

/// Ticks that a step of all three may ask of one of them.
const STEP: u64 = 2_000;

const GTCCR: [u8; 10] = [0x00, 0x00, 0x01, 0x02, 0x03, 0x80, 0x80, 0x81, 0x83, 0xff];
const PRR: [u8; 9] = [0x00, 0x00, 0x20, 0x08, 0x40, 0x68, 0x28, 0x97, 0xff];
const NOBODY: [u16; 12] = [0x00, 0x34, 0x38, 0x42, 0x49, 0x6d, 0x71, 0x83, 0x8c, 0xb5, 0x1ff, 0xffff];
const UNREADABLE: [&str; 8] = [
    "board",
    "board frob 1 2",
    "board advance 3 5 110",
    "board advance 0 5",
    "board wake 5 4097",
    "board prr 100 5 110",
    "board edge 0 6 1 5",
    "board new now",
];

struct Generator {
    rng: Rng,
    play: Play<Judge>,
    lines: Vec<String>,
    calls: usize,
}

impl Generator {
    /// Adds a line, lets the judge work it, and shows the board after it.
    fn say(&mut self, line: String) {
        self.play.answer(line.as_bytes());
        self.calls += 1;
        self.lines.extend([line, "board state".into()]);
    }

    fn config(&self, timer: usize) -> Config {
        view(&self.play, timer).config.clone()
    }

    /// An order that reaches one timer.
    fn own(&mut self, timer: usize, words: &str, reach: Reach) {
        let view = view(&self.play, timer);
        let (cycle, area) = (cycles::cycle(&mut self.rng, &view, reach), cycles::area(&mut self.rng));
        self.say(format!("board {words} {cycle} {area}"));
    }

    /// The latest cycle of the three, and the last to which none of them works too many ticks.
    fn span(&self) -> (u64, u64) {
        let views = [0, 1, 2].map(|timer| view(&self.play, timer));
        let latest = views.iter().map(|view| view.latest).max().unwrap_or(0);
        let most = |view: &View| match view.inside.divisor {
            0 => u64::MAX,
            divisor => view.inside.last_sync + STEP * divisor,
        };
        (latest, views.iter().map(most).min().unwrap_or(u64::MAX))
    }

    fn line(&mut self) {
        let timer = self.rng.below(3) as usize;
        let (latest, most) = self.span();
        // Where the three stand too far apart, or at the end of the cycles, little can be seen.
        if (latest > most || latest > (1 << 62) - 200) && self.rng.percent(25) {
            return self.say("board new".into());
        }
        // Timers that stand still show little: most lines there set them going again.
        let t = view(&self.play, timer).inside;
        let held = [(t.sleep_halted, "wake"), (t.power_reduced, "prr 0"), (t.tsm, "write 43 0")];
        let release: Vec<&str> = held.into_iter().filter(|h| h.0).map(|h| h.1).collect();
        match self.rng.below(100) {
            0..=29 if !release.is_empty() => {
                let words = self.rng.pick(&release);
                return self.reach(words);
            }
            0..=59 if release.is_empty() && t.divisor == 0 => return self.start(timer),
            _ => {}
        }
        match self.rng.below(1000) {
            0..=2 => self.say("board new".into()),
            3..=7 => {
                let line = self.rng.pick(&UNREADABLE);
                self.say(line.into());
            }
            8..=199 => self.own(timer, &format!("advance {timer}"), Reach::Over),
            200..=279 => self.step(),
            280..=419 => self.write_control(timer),
            420..=519 => self.write_count(timer),
            520..=589 => self.look(timer),
            590..=629 => self.flags(timer),
            630..=689 => self.edge(timer),
            690..=709 => self.own(timer, &format!("next {timer}"), Reach::Before),
            710..=729 => self.own(timer, &format!("reset {timer}"), Reach::Anywhere),
            730..=754 => self.nobody(),
            755..=774 => self.in_step(),
            775..=789 => self.apart(),
            _ => self.all(),
        }
    }

    /// Advances all three to one cycle, in any order.
    fn step(&mut self) {
        let (latest, most) = self.span();
        if most < latest {
            return;
        }
        let far = self.rng.pick(&[1, 3, 40, 600, STEP]);
        let cycle = (latest + self.rng.below(far)).min(most).min((1 << 62) - 1);
        let first = self.rng.below(3);
        let turn = 1 + self.rng.below(2);
        for i in 0..3 {
            let area = self.rng.weighted(&[(90, 4096), (6, 110), (4, 20)]);
            self.say(format!("board advance {} {cycle} {area}", (first + turn * i) % 3));
        }
    }

    /// An order that reaches all three, mostly where none of them lags.
    fn all(&mut self) {
        if self.rng.percent(60) {
            self.step();
        }
        let words = self.reaching();
        self.reach(&words);
    }

    /// Words of an order that reaches all three.
    fn reaching(&mut self) -> String {
        let mode = self.rng.below(8);
        let stray = self.rng.pick(&[8, 255]);
        let (border, any) = (self.rng.pick(&GTCCR), self.rng.byte());
        match self.rng.below(100) {
            0..=39 => format!("write 43 {:x}", self.rng.weighted(&[(95, border), (5, any)])),
            40..=59 => format!("sleep {}", self.rng.weighted(&[(50, mode), (1, stray)])),
            60..=79 => "wake".into(),
            _ => format!("prr {:x}", self.rng.pick(&PRR)),
        }
    }

    /// Ends the words of an order that reaches all three.
    fn reach(&mut self, words: &str) {
        let (latest, _) = self.span();
        let timer = self.rng.below(3) as usize;
        let soon = latest + self.rng.below(4);
        let aimed = {
            let view = view(&self.play, timer);
            cycles::cycle(&mut self.rng, &view, Reach::Before)
        };
        let cycle = self.rng.weighted(&[(75, latest), (12, soon), (13, aimed)]);
        let area = self.rng.pick(&[0, 9, 110, 110]);
        self.say(format!("board {words} {cycle} {area}"));
    }

    /// The three started one after the other under TSM, which is then released.
    fn in_step(&mut self) {
        self.step();
        let held = self.rng.pick(&["write 43 83", "write 43 80", "write 43 81"]);
        self.reach(held);
        for timer in 0..3 {
            self.write_control(timer);
        }
        let free = self.rng.pick(&["write 43 0", "write 43 0", "write 43 3", "write 43 83"]);
        self.reach(free);
    }

    /// All asleep, or under TSM, and then some of them reset: the three stand apart.
    fn apart(&mut self) {
        self.step();
        let held = self.rng.pick(&["sleep 2", "sleep 3", "sleep 7", "write 43 80", "write 43 83"]);
        self.reach(held);
        for timer in 0..3 {
            if self.rng.percent(55) {
                self.own(timer, &format!("reset {timer}"), Reach::Before);
            }
        }
        let words = self.reaching();
        self.reach(&words);
    }

    fn write_control(&mut self, timer: usize) {
        let c = self.config(timer);
        let view = view(&self.play, timer);
        let (a, b) = values::controls(&mut self.rng, &view);
        let strobe = self.rng.byte();
        let (address, value) = self.rng.weighted(&[(35, (c.tccra, a)), (55, (c.tccrb, b)), (10, (c.foc, strobe))]);
        self.own(timer, &format!("write {address:X} {value:x}"), Reach::Before);
    }

    /// The clock of a timer that stands still; where it counts T edges, such an edge.
    fn start(&mut self, timer: usize) {
        let c = self.config(timer);
        let b = view(&self.play, timer).inside.tccr_b & 0x18;
        match view(&self.play, timer).inside.tccr_b & 7 {
            6.. if self.rng.percent(50) => self.edge(timer),
            _ => {
                let clock = self.rng.weighted(&[(6, 1), (3, 2), (1, 3)]);
                self.own(timer, &format!("write {:x} {:x}", c.tccrb, b | clock), Reach::Before);
            }
        }
    }

    /// The low addresses of the counted registers.
    fn counted(&self, timer: usize) -> Vec<u16> {
        let c = self.config(timer);
        [Some(c.tcnt), c.ocra, c.ocrb, c.icr].into_iter().flatten().collect()
    }

    fn write_count(&mut self, timer: usize) {
        let counted = self.counted(timer);
        let address = self.rng.pick(&counted);
        let view = view(&self.play, timer);
        let value = values::count(&mut self.rng, &view);
        if view.config.wide && self.rng.percent(85) {
            self.own(timer, &format!("write {:x} {:x}", address + 1, value >> 8), Reach::Past);
        }
        self.own(timer, &format!("write {address:x} {:x}", value & 0xff), Reach::Before);
    }

    /// A read or a peek; a wide timer's compares are peeked at only (02, 2.5).
    fn look(&mut self, timer: usize) {
        let c = self.config(timer);
        if self.rng.percent(12) {
            let name = self.rng.pick(&["read", "peek"]);
            let cycle = self.rng.pick(&[0, 5, 1 << 62, u64::MAX]);
            return self.say(format!("board {name} 43 {cycle} 0"));
        }
        let counted = self.counted(timer);
        let low = self.rng.pick(&counted);
        let high = low + c.wide as u16;
        let address = self.rng.pick(&[low, low, high, c.tccra, c.tccrb, c.foc]);
        let compare = c.wide && [c.ocra, c.ocrb].into_iter().flatten().any(|o| o == address || o + 1 == address);
        let name = if compare || self.rng.percent(40) { "peek" } else { "read" };
        let reach = if name == "read" && c.wide && address == high { Reach::Past } else { Reach::Before };
        self.own(timer, &format!("{name} {address:x}"), reach);
    }

    /// TIFR and TIMSK, by their addresses or by the timer's id.
    fn flags(&mut self, timer: usize) {
        let (tifr, timsk) = (0x35 + timer, 0x6e + timer);
        let value = self.rng.byte() & self.rng.pick(&[0xff, 0x27]);
        let words = match self.rng.below(12) {
            0 => format!("read {tifr:x}"),
            1 => format!("peek {timsk:x}"),
            2..=3 => format!("write {tifr:x} {value:x}"),
            4..=5 => format!("write {timsk:x} {value:x}"),
            6 => format!("tifr {timer}"),
            7 => format!("timsk {timer}"),
            8..=9 => format!("wtifr {timer} {value:x}"),
            _ => format!("wtimsk {timer} {value:x}"),
        };
        self.own(timer, &words, Reach::Before);
    }

    fn edge(&mut self, timer: usize) {
        let c = self.config(timer);
        let stray = Some(self.rng.byte());
        let pins: Vec<u8> = [c.t, c.t, c.icp, c.icp, c.pina, stray].into_iter().flatten().collect();
        let pin = self.rng.pick(&pins);
        let level = self.rng.weighted(&[(49, 0), (49, 1), (1, 2), (1, 255)]);
        let words = match self.rng.below(10) {
            0 => format!("route {timer} {level}"),
            1..=2 => format!("acout {timer} {level}"),
            _ => format!("edge {timer} {pin} {level}"),
        };
        self.own(timer, &words, Reach::Before);
    }

    /// Addresses beside the board's, at any cycle.
    fn nobody(&mut self) {
        let address = self.rng.pick(&NOBODY);
        let cycle = self.rng.pick(&[0, 7, (1u64 << 62) - 1, 1 << 62]);
        let words = self.rng.pick(&["read", "peek", "write"]);
        let value = if words == "write" { " 7" } else { "" };
        self.say(format!("board {words} {address:x}{value} {cycle} 110"));
    }
}

/// A timer as the judge has it.
fn view(play: &Play<Judge>, timer: usize) -> View<'_> {
    play.side.board().expect("a script begins with a board").view(timer)
}

/// A script of at least so many board lines, with `board state` after every one.
pub fn script(seed: u64, calls: usize) -> Vec<String> {
    let play = Play::new(Judge::new(Follow::Sheet));
    let mut generator = Generator { rng: Rng::new(seed), play, lines: Vec::new(), calls: 0 };
    generator.say("board new".into());
    while generator.calls < calls {
        generator.line();
    }
    generator.lines
}
