//! The advance, event by event, so that it can stop before a tick whose records do not fit.

use mcs::machine::Event;

use super::bench::{Bench, Step, Worked};
use super::Follow;
use crate::script::Call;

pub fn advance(bench: &mut Bench, cycle: u64, room: usize, checked: bool) -> Worked {
    let start = bench.clone();
    let mut worked = Worked { value: None, bytes: Vec::new(), paused: None };
    let mut told = Vec::new();
    while let Some(at) = bench.next_event().filter(|&at| at <= cycle) {
        let before = bench.clone();
        let step = to(bench, at);
        if worked.bytes.len() + step.bytes.len() > room {
            *bench = before;
            worked.paused = Some(tick_before(bench, at));
            break;
        }
        worked.bytes.extend(step.bytes);
        told.extend(step.events);
    }
    let end = worked.paused.unwrap_or(cycle);
    assert!(to(bench, end).bytes.is_empty(), "records before the next event");
    if checked {
        check_long(start, bench, end, &told);
    }
    worked
}

fn to(bench: &mut Bench, cycle: u64) -> Step {
    bench.step(|bench| bench.call(Call::Advance, cycle, Follow::Rust))
}

/// Where an advance stands that stops before the tick at `at`.
fn tick_before(bench: &Bench, at: u64) -> u64 {
    let t = bench.timer.inside();
    t.last_sync.max(at - t.divisor)
}

/// Event by event the Rust must come to what one long `on_event` comes to.
fn check_long(mut long: Bench, bench: &Bench, cycle: u64, told: &[Event]) {
    long.call(Call::Advance, cycle, Follow::Rust);
    assert_eq!(long.timer.inside(), bench.timer.inside(), "one long on_event to {cycle} leaves another timer");
    assert_eq!(long.cpu.data, bench.cpu.data, "one long on_event to {cycle} leaves other flags");
    assert_eq!(long.cpu.lines, bench.cpu.lines, "one long on_event to {cycle} leaves other request lines");
    assert!(long.sys.events.iter().eq(told), "one long on_event to {cycle} tells other events");
}
