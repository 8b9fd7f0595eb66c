//! Many random scripts as one input, with the judge's answers to it: a program is then started seldom, and reads much.

use std::sync::mpsc::SyncSender;

use super::figures::Figures;
use super::{failed_check, script};
use crate::judge::{Follow, Judge};
use crate::script::Play;

/// Scripts of one batch, some 90,000 calls.
const SCRIPTS: u64 = 300;

/// What a script of a batch begins with: one scheduler serves the whole input, so that a seed's script must not find
/// what another left. A timer does stay until the next configuration that is accepted.
pub const APART: &str = "sched clear";

/// The script of a seed as it stands in a batch.
pub struct Script {
    pub seed: u64,
    pub lines: Vec<String>,
}

#[derive(Default)]
pub struct Batch {
    pub scripts: Vec<Script>,
    pub input: Vec<u8>,
    pub answers: Vec<u8>,
    /// What door.log must hold in the end.
    pub recorded: Option<Vec<u8>>,
}

impl Batch {
    /// The batch that begins with a seed, counted; it ends early where so many calls are done.
    fn new(first: u64, wanted: usize, figures: &mut Figures) -> Result<Self, String> {
        let mut batch = Self::default();
        let mut play = Play::new(Judge::new(Follow::Sheet).counting());
        for seed in first..first + SCRIPTS {
            let mut lines = vec![APART.into()];
            lines.extend(script(seed).ok_or_else(|| failed_check(seed))?);
            lines.iter().for_each(|line| batch.add(line, &mut play, figures));
            figures.close_script(seed);
            batch.scripts.push(Script { seed, lines });
            if figures.calls() >= wanted {
                break;
            }
        }
        batch.recorded = play.recorded;
        Ok(batch)
    }

    fn add(&mut self, line: &str, play: &mut Play<Judge>, figures: &mut Figures) {
        self.input.extend(line.as_bytes());
        self.input.push(b'\n');
        let Some(answer) = play.answer(line.as_bytes()) else { return };
        figures.count(line, &answer, &play.side);
        self.answers.extend(answer.as_bytes());
        self.answers.push(b'\n');
    }

    pub fn lines(&self) -> Vec<String> {
        self.scripts.iter().flat_map(|script| script.lines.iter().cloned()).collect()
    }
}

/// Makes batches until so many calls are done or nobody takes them any more.
pub fn make(to: SyncSender<Batch>, wanted: usize, first: u64) -> Result<Figures, String> {
    let mut figures = Figures::default();
    let mut seed = first;
    while figures.calls() < wanted {
        let batch = Batch::new(seed, wanted, &mut figures)?;
        seed += SCRIPTS;
        if to.send(batch).is_err() {
            break;
        }
    }
    Ok(figures)
}
