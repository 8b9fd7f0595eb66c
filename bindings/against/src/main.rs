//! `against CALLS SEED`: the bindings against the unchanged Rust, over the oracle's random scripts. Answers, every byte of
//! the area and all state are compared after every line on a timer.

mod ours;

use oracle::generate;
use oracle::judge::{Follow, Judge};
use oracle::script::play::read_line;
use oracle::script::{Answer, Call, Command, Side};
use ours::Ours;

/// Calls of one random script.
const SCRIPT_CALLS: usize = 300;

/// What stands in every byte of the area before each call.
const FILL: u8 = 0xa5;

#[derive(Default)]
struct Figures {
    calls: usize,
    refused: usize,
    paused: usize,
    /// Calls after which the event is past, where `next` is refused and so cannot be compared.
    due: usize,
    configs: usize,
    shifts: usize,
}

fn main() {
    let numbers: Vec<u64> = std::env::args().skip(1).filter_map(|a| a.parse().ok()).collect();
    let [calls, first] = numbers[..] else {
        eprintln!("usage: against CALLS SEED");
        std::process::exit(2)
    };
    let mut figures = Figures::default();
    let mut seed = first;
    while figures.calls < calls as usize {
        let lines = generate::script(seed, SCRIPT_CALLS);
        if let Err(why) = script(&lines, &mut figures) {
            eprintln!("against: seed {seed}: {why}");
            std::process::exit(1);
        }
        seed += 1;
    }
    let Figures { calls, refused, paused, due, configs, shifts } = figures;
    println!("{calls} calls on {configs} timers in {} scripts from seed {first}: no disagreement", seed - first);
    println!("{refused} refused, {paused} paused, {due} with the event past; {shifts} shifts");
}

/// Both sides over one script; the first line on which they differ.
fn script(lines: &[String], figures: &mut Figures) -> Result<(), String> {
    let mut judge = Judge::new(Follow::Sheet).counting();
    let mut ours = Ours::default();
    for (n, line) in lines.iter().enumerate() {
        match read_line(line.as_bytes()) {
            Ok(Some(Command::Config(config))) => {
                same(n, line, &judge.configure(&config), &ours.configure(&config))?;
                figures.configs += 1;
            }
            Ok(Some(Command::Call { call, cycle, area })) => {
                let (theirs, mine) = both(&mut judge, &mut ours, call, cycle, area, figures);
                same(n, line, &theirs, &mine)?;
                same(n, line, &judge.state(), &ours.state())?;
                same(n, line, &judge.distance(), &ours.distance())?;
            }
            Ok(Some(Command::Shift { first, second })) => {
                same(n, line, &judge.shift(first, second), &ours.shift(first, second))?;
                figures.shifts += 1;
            }
            // `state` and `distance` are compared after every call; pins and the scheduler are not the timer's.
            _ => (),
        }
    }
    Ok(())
}

/// A call by both, each with an area of its own.
fn both(
    judge: &mut Judge,
    ours: &mut Ours,
    call: Call,
    cycle: u64,
    size: usize,
    figures: &mut Figures,
) -> ((Answer, Vec<u8>), (Answer, Vec<u8>)) {
    let mut areas = [vec![FILL; size], vec![FILL; size]];
    let [theirs, mine] = &mut areas;
    let mut judged = judge.call(call, cycle, theirs);
    let answered = ours.call(call, cycle, mine);
    figures.calls += 1;
    figures.refused += matches!(answered, Answer::Refused(_)) as usize;
    figures.paused += matches!(answered, Answer::Paused { .. }) as usize;
    if let (Answer::Done { next, .. } | Answer::Paused { next, .. }, true) = (&mut judged, ours.event_due()) {
        figures.due += 1;
        *next = None;
    }
    let [theirs, mine] = areas;
    ((judged, theirs), (answered, mine))
}

fn same<T: PartialEq + std::fmt::Debug>(n: usize, line: &str, judge: &T, ours: &T) -> Result<(), String> {
    if judge == ours {
        return Ok(());
    }
    Err(format!("line {}: {line}\njudge: {judge:?}\nours: {ours:?}", n + 1))
}
