//! The judge and another side over the same random scripts, line by line, with all state after every call. The other
//! side is the plain counter, or a bench program (`program`).

mod account;
mod batch;
pub mod bends;
pub mod board;
pub mod cover;
pub mod figures;
pub mod program;
pub mod shrink;
pub mod watchdog;

use std::panic;

use crate::generate;
use crate::judge::{Follow, Judge};
use crate::plain::bends::Bend;
use crate::plain::Plain;
use crate::script::play::read_line;
use crate::script::{Command, Play};
use figures::Figures;

/// Calls of one random script: `generate SEED 300` shows the script of a seed.
pub const SCRIPT_CALLS: usize = 300;

/// The answer to each line of a script; nothing to one without words.
pub type Answers = Vec<Option<String>>;

/// A line on which the two sides differ, and what each answers.
pub struct Clash {
    pub line: usize,
    pub judge: String,
    pub other: String,
}

impl Clash {
    fn new(line: usize, judge: &Option<String>, other: &Option<String>) -> Self {
        let text = |answer: &Option<String>| answer.clone().unwrap_or_default();
        Self { line, judge: text(judge), other: text(other) }
    }
}

/// A random script; where the judge's own checks fail on it, nothing, after the check's message.
pub fn script(seed: u64) -> Option<Vec<String>> {
    panic::catch_unwind(|| generate::script(seed, SCRIPT_CALLS)).ok()
}

/// Answers a script by the judge, following the sheet.
pub fn judged(lines: &[String], figures: &mut Figures) -> Answers {
    let mut play = Play::new(Judge::new(Follow::Sheet).counting());
    let mut answers = Vec::with_capacity(lines.len());
    for line in lines {
        let answer = play.answer(line.as_bytes());
        figures.count(line, answer.as_deref().unwrap_or_default(), &play.side);
        answers.push(answer);
    }
    answers
}

/// The first line on which the plain counter, bent or not, differs from the judge.
pub fn clash(lines: &[String], judged: &[Option<String>], bend: Option<Bend>) -> Option<Clash> {
    let mut play = Play::new(Plain::new(bend));
    for (line, judge) in judged.iter().enumerate() {
        let plain = play.answer(lines[line].as_bytes());
        if plain != *judge {
            return Some(Clash::new(line, judge, &plain));
        }
    }
    None
}

/// Calls among the lines: all but configurations, `state`, `distance` and `shift`.
pub fn calls(lines: &[String]) -> usize {
    let is_call = |line: &&String| {
        let read = read_line(line.as_bytes());
        !matches!(read, Ok(Some(Command::Config(_) | Command::State | Command::Distance | Command::Shift { .. })))
    };
    lines.iter().filter(is_call).count()
}

/// Compares seed after seed until so many calls are done. A disagreement ends it, with its smallest script. A
/// bend is for seeing one.
pub fn run(wanted: usize, first: u64, bend: Option<Bend>) -> Result<Figures, String> {
    let mut figures = Figures::default();
    for seed in first.. {
        let lines = script(seed).ok_or_else(|| failed_check(seed))?;
        let answers = judged(&lines, &mut figures);
        if let Some(found) = clash(&lines, &answers, bend) {
            let find = |lines: &[String], judged: &[Option<String>]| clash(lines, judged, bend);
            return Err(report(&format!("seed {seed}"), "plain", &lines[..=found.line], find));
        }
        figures.close_script(seed);
        if figures.calls() >= wanted {
            break;
        }
    }
    Ok(figures)
}

fn failed_check(seed: u64) -> String {
    format!("a check of the judge failed on seed {seed}: generate {seed} {SCRIPT_CALLS}")
}

/// The smallest script of a disagreement, with both answers to its last line.
fn report(
    whose: &str,
    other: &str,
    lines: &[String],
    find: impl Fn(&[String], &[Option<String>]) -> Option<Clash>,
) -> String {
    let (small, clash) = shrink::smallest(lines.to_vec(), find);
    let script = small.join("\n");
    format!(
        "{whose}: judge and {other} disagree on the last line of\n\n{script}\n\njudge: {}\n{other}: {}",
        clash.judge, clash.other
    )
}
