//! Whether the comparison is sharp: each bent plain counter must be noticed.

use super::board;
use super::figures::Figures;
use super::{calls, clash, judged, script, Answers};
use crate::plain::bends::Bend;

/// A bend not noticed in so many calls is a fault of the comparison.
const MOST_CALLS: usize = 500_000;

/// Scripts with the judge's answers, made as they are wanted.
struct Sample {
    next: u64,
    scripts: Vec<(Vec<String>, Answers)>,
}

impl Sample {
    fn get(&mut self, place: usize) -> &(Vec<String>, Answers) {
        while self.scripts.len() <= place {
            let lines = script(self.next).expect("a script that passes the judge's checks");
            let answers = judged(&lines, &mut Figures::default());
            self.scripts.push((lines, answers));
            self.next += 1;
        }
        &self.scripts[place]
    }

    /// After how many calls a bend is noticed.
    fn noticed(&mut self, bend: Bend) -> Option<usize> {
        let mut before = 0;
        let mut place = 0;
        while before < MOST_CALLS {
            let (lines, answers) = self.get(place);
            if let Some(clash) = clash(lines, answers, Some(bend)) {
                return Some(before + calls(&lines[..=clash.line]));
            }
            before += calls(lines);
            place += 1;
        }
        None
    }
}

/// A line for each bend; an error if one of them passes unnoticed.
pub fn run(first: u64) -> Result<(), String> {
    let mut sample = Sample { next: first, scripts: Vec::new() };
    let mut missed = Vec::new();
    for bend in Bend::all() {
        let noticed = match Bend::BOARDS.contains(&bend) {
            true => board::noticed(bend, first, MOST_CALLS),
            false => sample.noticed(bend),
        };
        match noticed {
            Some(calls) => println!("{}: noticed after {calls} calls ({})", bend.name(), bend.what()),
            None => missed.push(bend.name()),
        }
    }
    if missed.is_empty() {
        println!("{} bends, each noticed; seeds from {first}", Bend::all().count());
        return Ok(());
    }
    Err(format!("not noticed in {MOST_CALLS} calls: {}", missed.join(", ")))
}
