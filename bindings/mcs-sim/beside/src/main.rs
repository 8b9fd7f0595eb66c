//! `beside CALLS SEED`: the drop-in beside the unchanged timer.rs, each in a stand-in machine of its own, over the
//! oracle's random scripts. What a call yields, what the machine is told, in its order, flags, request lines, overrides
//! of pins and the event held are compared after every call, and every few calls what `inspect` shows. Calls that a
//! machine does not make are left out: those that 01 refuses with 2 to 5 and 7.
//!
//! In every second script no event comes before a call that lies after it, so that the call itself has to work it.
//! There both are synced by a peek before they are compared, since the two need not work it in the same call.

mod machine;

/// The paths by which the drop-in names its surroundings.
mod avr {
    pub use mcs::machine;

    pub mod peripherals {
        pub use mcs::irqflags;
    }
}

/// The whole of it is not used here.
#[path = "../../timer.rs"]
#[allow(dead_code)]
mod timer;

use machine::{Ours, Side, Theirs};
use oracle::generate;
use oracle::judge::setup;
use oracle::script::play::read_line;
use oracle::script::{Call, Command, Config, Side as _};

/// Calls of one random script.
const SCRIPT_CALLS: usize = 300;

/// A call that many ticks away is left out: with an area the script's timer would have paused.
const FAR: u64 = 100_000;

const LAST_CYCLE: u64 = (1 << 62) - 1;

#[derive(Default)]
struct Figures {
    calls: usize,
    left_out: usize,
    timers: usize,
    told: usize,
}

fn main() {
    let numbers: Vec<u64> = std::env::args().skip(1).filter_map(|a| a.parse().ok()).collect();
    let [calls, first] = numbers[..] else {
        eprintln!("usage: beside CALLS SEED");
        std::process::exit(2)
    };
    let mut figures = Figures::default();
    let mut seed = first;
    while figures.calls < calls as usize {
        let lines = generate::script(seed, SCRIPT_CALLS);
        if let Err(why) = script(&lines, seed % 2 == 0, &mut figures) {
            eprintln!("beside: seed {seed}: {why}");
            std::process::exit(1);
        }
        seed += 1;
    }
    let Figures { calls, left_out, timers, told } = figures;
    println!(
        "{calls} calls on {timers} timers in {} scripts from seed {first}: alike, with {told} pins and triggers told",
        seed - first
    );
    println!("{left_out} calls left out, which a machine does not make");
}

/// Both over one script; the first line on which they differ.
fn script(lines: &[String], in_time: bool, figures: &mut Figures) -> Result<(), String> {
    let mut judge = oracle::judge::Judge::new(oracle::judge::Follow::Sheet);
    let mut both: Option<(Config, Theirs, Ours, u64)> = None;
    for (n, line) in lines.iter().enumerate() {
        match read_line(line.as_bytes()) {
            Ok(Some(Command::Config(config))) => {
                if judge.configure(&config) == oracle::script::Answer::Config {
                    let theirs = Theirs::new(setup::timer_config(&config));
                    let ours = Ours::new(setup::timer_config(&config));
                    same("registers", sorted(theirs.timer.registers()), sorted(ours.timer.registers()))?;
                    same("irq_map", theirs.timer.irq_map(), ours.timer.irq_map())?;
                    figures.timers += 1;
                    both = Some((*config, theirs, ours, 0));
                }
            }
            Ok(Some(Command::Call { call, cycle, .. })) => {
                let Some((config, theirs, ours, latest)) = &mut both else { continue };
                if !made(config, theirs, call, cycle, *latest) {
                    figures.left_out += 1;
                    continue;
                }
                *latest = cycle;
                figures.calls += 1;
                figures.told += work(theirs, ours, call, cycle, in_time, figures.calls % 8 == 0)
                    .map_err(|why| format!("line {}: {line}\n{why}", n + 1))?;
            }
            _ => (),
        }
    }
    Ok(())
}

/// Whether a machine makes the call.
fn made(config: &Config, theirs: &Theirs, call: Call, cycle: u64, latest: u64) -> bool {
    let t = theirs.timer.inside();
    let far = cycle.saturating_sub(t.last_sync).checked_div(t.divisor).unwrap_or(0) > FAR;
    let fits = match call {
        Call::Read(a) | Call::Peek(a) | Call::Write(a, _) => theirs.timer.registers().contains(&(a, 0)),
        Call::Edge { level, .. } | Call::Route(level) | Call::AcOut(level) | Call::Tsm(level) => level <= 1,
        Call::Sleep(mode) => mode <= 7,
        _ => true,
    };
    let disturbs = t.sleep_halted
        && match call {
            Call::Presc(mask) => mask & config.group != 0,
            Call::Tsm(level) => (level == 1) != t.tsm,
            Call::Sleep(mode) => mode != 0 && config.sleeprun.checked_shr(mode.into()).unwrap_or(0) & 1 == 0,
            _ => false,
        };
    latest <= cycle && cycle <= LAST_CYCLE && fits && !disturbs && !far
}

/// A call by both; how many pins and triggers were told.
fn work(
    theirs: &mut Theirs,
    ours: &mut Ours,
    call: Call,
    cycle: u64,
    in_time: bool,
    shown: bool,
) -> Result<usize, String> {
    if in_time {
        theirs.events(cycle);
        ours.events(cycle);
    }
    same("value", theirs.call(call, cycle), ours.call(call, cycle))?;
    if !in_time {
        let tccra = theirs.timer.registers()[0].0;
        same("peek", theirs.call(Call::Peek(tccra), cycle), ours.call(Call::Peek(tccra), cycle))?;
    }
    if shown {
        same("inspect", theirs.inspect(cycle), ours.inspect(cycle))?;
    }
    let told = theirs.told();
    let number = told.len();
    same("told", told, ours.told())?;
    same("surroundings", theirs.surroundings(), ours.surroundings())?;
    same("event", theirs.next_event(), ours.held_event())?;
    Ok(number)
}

fn sorted<T: Ord>(mut all: Vec<T>) -> Vec<T> {
    all.sort();
    all
}

fn same<T: PartialEq + std::fmt::Debug>(what: &str, theirs: T, ours: T) -> Result<(), String> {
    if theirs == ours {
        return Ok(());
    }
    Err(format!("{what}\ntimer.rs: {theirs:?}\ndrop-in:  {ours:?}"))
}
