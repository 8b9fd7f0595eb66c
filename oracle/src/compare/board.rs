//! A bench program against the board of the unchanged Rust, and that against the plain board, over random scripts of `board` lines.

use std::collections::BTreeMap;

use super::figures::{listed, Figures};
use super::program::Program;
use super::{clash, judged, report, Clash};
use crate::generate::board::script;
use crate::judge::{Follow, Judge};
use crate::plain::bends::Bend;
use crate::script::play::RECORDED;
use crate::script::Play;

/// Board lines of one script, and scripts of one input.
const LINES: usize = 300;
const SCRIPTS: u64 = 100;

/// What a comparison has covered.
#[derive(Default)]
struct Covered {
    calls: usize,
    orders: BTreeMap<String, usize>,
    refused: BTreeMap<u8, usize>,
    paused: usize,
    records: usize,
    /// Boards shown with so many of the three running, and with one or two asleep.
    running: [usize; 4],
    apart: usize,
}

impl Covered {
    fn count(&mut self, line: &str, answer: &str) {
        let name = line.split(' ').nth(1).unwrap_or_default();
        if name == "state" {
            return self.count_state(answer);
        }
        self.calls += 1;
        let name = if answer.starts_with("error") { "unreadable" } else { name };
        *self.orders.entry(name.into()).or_default() += 1;
        if let Some(number) = answer.strip_prefix("refused ") {
            *self.refused.entry(number.parse().unwrap_or_default()).or_default() += 1;
        }
        self.paused += answer.starts_with("paused") as usize;
        if let Some(bytes) = answer.split_once("bytes=").and_then(|(_, rest)| rest.split(' ').next()) {
            self.records += bytes.split(',').filter_map(|n| n.parse::<usize>().ok()).sum::<usize>() / 10;
        }
    }

    fn count_state(&mut self, answer: &str) {
        let sched = answer.split_once("sched=").and_then(|(_, rest)| rest.split('\n').next()).unwrap_or_default();
        self.running[sched.split(',').filter(|&held| held != "none").count()] += 1;
        let asleep = answer.matches("asleep=1").count();
        self.apart += (asleep == 1 || asleep == 2) as usize;
    }

    fn print(&self, first: u64, last: u64) {
        println!("board: {} calls of seeds {first} to {last}, no disagreement", self.calls);
        println!("orders: {}", listed(self.orders.iter().map(|(k, &n)| (k, n))));
        println!("refused by number: {}", listed(self.refused.iter().map(|(k, &n)| (k, n))));
        println!("paused advances: {}, records: {}", self.paused, self.records);
        println!("boards shown with timers running: {}", listed(self.running.iter().copied().enumerate()));
        println!("boards shown with some of the three asleep: {}", self.apart);
    }
}

/// An error with the smallest script where the other side answers otherwise than the Rust's board. A fresh board forgets what was before it.
fn agrees(
    lines: &[String],
    answers: &[Option<String>],
    other: &str,
    find: impl Fn(&[String], &[Option<String>]) -> Option<Clash>,
) -> Result<(), String> {
    let Some(found) = find(lines, answers) else { return Ok(()) };
    let begun = lines[..=found.line].iter().rposition(|line| line == "board new").unwrap_or(0);
    Err(report("board", other, &lines[begun..=found.line], find))
}

/// Compares until so many calls are done. Every script begins with a fresh board.
pub fn run(program: &Program, wanted: usize, first: u64) -> Result<(), String> {
    let mut covered = Covered::default();
    let mut seed = first;
    while covered.calls < wanted {
        recorded(program, seed)?;
        let lines: Vec<String> = (seed..seed + SCRIPTS).flat_map(|seed| script(seed, LINES)).collect();
        let answers = judged(&lines, &mut Figures::default());
        agrees(&lines, &answers, "plain", |lines, judged| clash(lines, judged, None))?;
        agrees(&lines, &answers, "program", |lines, judged| program.clash(lines, judged))?;
        lines.iter().zip(answers.iter().flatten()).for_each(|(line, answer)| covered.count(line, answer));
        seed += SCRIPTS;
    }
    covered.print(first, seed - 1);
    Ok(())
}

/// The script of a seed with one of its timers recorded: an error where the program keeps other records than the judge.
fn recorded(program: &Program, seed: u64) -> Result<(), String> {
    let mut lines = script(seed, LINES);
    lines.insert(lines.len() / 2, format!("record {}", seed % 3));
    let mut play = Play::new(Judge::new(Follow::Sheet));
    lines.iter().for_each(|line| drop(play.answer(line.as_bytes())));
    match program.recorded(&lines)? == play.recorded {
        true => Ok(()),
        false => Err(format!("seed {seed}: not what {RECORDED} holds with record {} half way", seed % 3)),
    }
}

/// After how many calls a bend of the plain board is noticed.
pub fn noticed(bend: Bend, first: u64, most: usize) -> Option<usize> {
    let mut before = 0;
    for seed in first.. {
        let lines = script(seed, LINES);
        let answers = judged(&lines, &mut Figures::default());
        if let Some(clash) = clash(&lines, &answers, Some(bend)) {
            return Some(before + (clash.line + 2) / 2);
        }
        before += lines.len() / 2;
        if before >= most {
            break;
        }
    }
    None
}
