//! The smallest script that still shows a disagreement: lines are dropped, many at once and then singly.

use super::{Answers, Clash};
use crate::judge::{Follow, Judge};
use crate::script::play::read_line;
use crate::script::{BoardLine, Call, Command, Order, Play};

/// Without a stop that was dropped, an advance may ask for more ticks than can be worked. No other call
/// passes the next event.
const MOST_TICKS: u64 = 2_000_000;

/// `find` says on which line the other side's answer is not the judge's.
pub fn smallest(
    mut lines: Vec<String>,
    find: impl Fn(&[String], &[Option<String>]) -> Option<Clash>,
) -> (Vec<String>, Clash) {
    let shown = |lines: &[String]| find(lines, &judged(lines)?);
    let mut found = shown(&lines).expect("a script that shows a disagreement");
    let mut size = lines.len();
    while size > 0 {
        let mut at = 0;
        let mut dropped = false;
        while at < lines.len() {
            let mut fewer = lines.clone();
            fewer.drain(at..(at + size).min(lines.len()));
            match shown(&fewer) {
                Some(clash) => {
                    fewer.truncate(clash.line + 1);
                    (lines, found, dropped) = (fewer, clash, true);
                }
                None => at += size,
            }
        }
        size = if dropped && size == 1 { 1 } else { size / 2 };
    }
    (lines, found)
}

/// The judge's answers, unless an advance goes too far.
fn judged(lines: &[String]) -> Option<Answers> {
    let mut play = Play::new(Judge::new(Follow::Sheet).counting());
    let mut answers = Vec::new();
    for line in lines {
        if ticks(&play.side, line) > MOST_TICKS {
            return None;
        }
        answers.push(play.answer(line.as_bytes()));
    }
    Some(answers)
}

/// How many ticks the advance of a line asks for.
fn ticks(judge: &Judge, line: &str) -> u64 {
    match read_line(line.as_bytes()) {
        Ok(Some(Command::Call { call: Call::Advance, cycle, .. })) if cycle < 1 << 62 => judge.ticks_to(cycle),
        Ok(Some(Command::Board(BoardLine::Call { order: Order::Advance(timer), cycle, .. }))) if cycle < 1 << 62 => {
            judge.board().map_or(0, |board| board.ticks_to(timer, cycle))
        }
        _ => 0,
    }
}
