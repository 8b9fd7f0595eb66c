//! What a script reaches: whether a fixed list leaves out a refusal, a mode, a layout, a command or a reason.

use std::fs;
use std::path::Path;

use super::figures::Figures;
use crate::judge::{Follow, Judge};
use crate::script::Play;

/// Answers a script by the judge and says what it reaches; an error where something is left out.
pub fn run(path: &Path) -> Result<(), String> {
    let script = fs::read(path).map_err(|e| format!("cannot read {}: {e}", path.display()))?;
    let mut figures = Figures::default();
    let mut play = Play::new(Judge::new(Follow::Sheet));
    for line in script.split(|&b| b == b'\n') {
        if let Some(answer) = play.answer(line) {
            figures.count(&String::from_utf8_lossy(line), &answer, &play.side);
        }
    }
    println!("{}", figures.reached());
    match figures.left_out() {
        left if left.is_empty() => Ok(()),
        left => Err(format!("{} leaves out: {}", path.display(), left.join(", "))),
    }
}
