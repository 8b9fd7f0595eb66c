//! A bench program against the plain watchdog, over random scripts of `wdt` lines.

use super::program::Program;
use crate::generate::watchdog::script;
use crate::plain::Plain;
use crate::script::Play;

/// Lines of one script, and scripts of one input.
const LINES: usize = 300;
const SCRIPTS: u64 = 300;

/// Compares until so many calls are done. Every script begins with a new watchdog.
pub fn run(program: &Program, wanted: usize, first: u64) -> Result<(), String> {
    let (mut calls, mut refused, mut paused, mut timeouts) = (0, [0usize; 18], 0, [0usize; 3]);
    let mut seed = first;
    while calls < wanted {
        let mut play = Play::new(Plain::new(None));
        let lines: Vec<String> = (seed..seed + SCRIPTS).flat_map(|seed| script(seed, LINES)).collect();
        let answers: Vec<String> = lines.iter().map(|l| play.answer(l.as_bytes()).unwrap_or_default()).collect();
        let input: String = lines.iter().map(|line| format!("{line}\n")).collect();
        let wrote = program.answer(input.as_bytes())?;
        let mut wrote = wrote.split(|&b| b == b'\n');
        for (at, (line, answer)) in lines.iter().zip(&answers).enumerate() {
            let other = String::from_utf8_lossy(wrote.next().unwrap_or_default());
            if other != *answer {
                let script = lines[..at].iter().rposition(|l| l == "wdt new").unwrap_or(0);
                let script = lines[script..=at].join("\n");
                return Err(format!("seeds from {seed}: they disagree on the last line of\n\n{script}\n\nplain: {answer}\nprogram: {other}"));
            }
            calls += (line != "wdt state") as usize;
            paused += answer.starts_with("paused") as usize;
            if let Some(number) = answer.strip_prefix("refused ") {
                refused[number.parse::<usize>().map_err(|e| e.to_string())?] += 1;
            }
            if let Some((_, records)) = answer.split_once("records=c") {
                let records = format!("c{records}");
                records.as_bytes().chunks(20).for_each(|r| timeouts[(r[19] - b'0') as usize] += 1);
            }
        }
        seed += SCRIPTS;
    }
    let refused: Vec<String> = [2, 3, 6, 17].iter().map(|&n| format!("{n}: {}", refused[n])).collect();
    println!("watchdog: {calls} calls of seeds {first} to {}, no disagreement", seed - 1);
    println!(
        "refused {}, paused advances {paused}, interrupts {}, resets {}",
        refused.join(", "),
        timeouts[1],
        timeouts[2]
    );
    Ok(())
}
