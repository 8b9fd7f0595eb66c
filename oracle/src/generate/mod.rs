//! Random scripts by seed. The generator runs the judge on its own lines, so that it can aim at the next
//! event, at TOP and at the compares.

pub mod board;
mod calls;
mod configs;
mod cycles;
mod lists;
mod others;
mod records;
mod rng;
mod shifts;
mod values;
pub mod watchdog;

use crate::judge::{Follow, Judge, View};
use crate::script::Play;
use rng::Rng;

struct Generator {
    rng: Rng,
    /// For lines that move no timer, so that a seed's calls do not hang on them.
    aside: Rng,
    play: Play<Judge>,
    lines: Vec<String>,
    calls: usize,
}

impl Generator {
    fn view(&self) -> Option<View<'_>> {
        self.play.side.view()
    }

    /// Adds a line and lets the judge work it. `state`, `distance`, `shift` and configurations are not calls.
    fn say(&mut self, line: String) {
        self.play.answer(line.as_bytes());
        if !["state", "distance", "shift", "config", "preset"].iter().any(|w| line.starts_with(w)) {
            self.calls += 1;
        }
        self.lines.push(line);
    }

    fn line(&mut self) {
        // Without a timer, or with one at the end of its cycles, little can be seen.
        let worn_out = self.view().is_none_or(|v| v.latest > (1 << 62) - 200);
        match self.rng.below(1000) {
            0..=5 => self.configure(),
            6..=205 if worn_out => self.configure(),
            206..=245 => self.pin(),
            246..=285 => self.scheduler(),
            286..=287 => self.unreadable(),
            288..=297 => self.door(),
            298..=347 => self.log(),
            348..=350 => self.say("record".into()),
            351..=353 => self.items(),
            354..=363 => self.writes(),
            _ => self.timer_move(),
        }
    }

    fn configure(&mut self) {
        let line = configs::line(&mut self.rng);
        self.say(line);
        self.say("state".into());
    }
}

/// A script of at least so many calls, with `state` and `distance` after every one on the timer, and `shift` after some.
pub fn script(seed: u64, calls: usize) -> Vec<String> {
    let play = Play::new(Judge::new(Follow::Sheet));
    let mut generator = Generator { rng: Rng::new(seed), aside: Rng::new(!seed), play, lines: Vec::new(), calls: 0 };
    if generator.rng.percent(97) {
        generator.configure();
    }
    while generator.calls < calls {
        generator.line();
    }
    generator.lines
}
