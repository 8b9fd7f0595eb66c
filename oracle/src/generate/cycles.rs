//! The cycle and the area of a call: around the next event, around a tick, and at the ends of the range.

use super::rng::Rng;
use crate::judge::View;

pub const LAST_CYCLE: u64 = (1 << 62) - 1;

/// Ticks that the plain counter is asked to work in one call, and how far it may go once in a while.
const NEAR: u64 = 3_000;
const FAR: u64 = 140_000;

/// How a call stands to the next event.
#[derive(Clone, Copy, PartialEq, Eq)]
pub enum Reach {
    /// Refused at the next event: mostly before it.
    Before,
    /// An advance: mostly over it.
    Over,
    /// A high byte: sometimes past it.
    Past,
    /// A reset: anywhere.
    Anywhere,
}

pub fn area(rng: &mut Rng) -> u64 {
    let exact = rng.pick(&[0, 9, 10, 19, 20, 29, 30, 40, 50, 59, 60, 70, 109, 111]);
    let more = rng.pick(&[120, 220, 500, 1000, 4096]);
    rng.weighted(&[(30, exact), (55, 110), (15, more)])
}

pub fn cycle(rng: &mut Rng, view: &View, reach: Reach) -> u64 {
    match rng.below(1000) {
        0..=7 => return view.latest.saturating_sub(1 + rng.below(3)),
        8..=11 => return rng.pick(&[LAST_CYCLE + 1, LAST_CYCLE + 2, u64::MAX]),
        _ => {}
    }
    if reach == Reach::Anywhere && rng.percent(20) {
        return LAST_CYCLE - rng.below(20_000).min(LAST_CYCLE - view.latest);
    }
    let wanted = match view.next {
        Some(next) => running(rng, view, reach, next),
        None => stopped(rng, view, reach),
    };
    bounded(rng, view, wanted.max(view.latest), reach)
}

fn stopped(rng: &mut Rng, view: &View, reach: Reach) -> u64 {
    let jump = match rng.below(1000) {
        0..=2 if reach == Reach::Before => return LAST_CYCLE - rng.below(5_000),
        0..=5 => rng.below(1 << 40),
        6..=400 => 0,
        _ => {
            let most = rng.pick(&[4, 30, 3_000]);
            rng.below(most)
        }
    };
    view.latest.saturating_add(jump)
}

fn running(rng: &mut Rng, view: &View, reach: Reach, next: u64) -> u64 {
    let divisor = view.inside.divisor;
    let around = next - 1 + rng.below(3);
    let later = next + rng.below(6) * divisor + rng.below(3) - 1;
    let some = {
        let ticks = rng.weighted(&[(25, 3), (25, 20), (25, 400), (23, NEAR), (2, FAR)]);
        view.latest + rng.below(ticks * divisor)
    };
    let tick = view.latest + divisor - (view.latest - view.inside.ps_base) % divisor - 1 + rng.below(3);
    let quiet = view.latest + rng.below(next.saturating_sub(view.latest).max(1));
    let same = view.latest;
    match reach {
        Reach::Before => rng.weighted(&[
            (40, same),
            (26, quiet),
            (14, next - 1),
            (5, around),
            (12, tick.min(next - 1)),
            (1, some),
            (2, next),
        ]),
        Reach::Over => rng.weighted(&[(25, around), (25, later), (25, some), (15, tick), (5, same), (5, quiet)]),
        Reach::Past => rng.weighted(&[(70, same), (15, quiet), (8, around), (7, later)]),
        Reach::Anywhere => rng.weighted(&[(40, same), (30, quiet), (30, some)]),
    }
}

/// A call that works ticks must not ask for too many, nor pass the last cycle by accident.
fn bounded(rng: &mut Rng, view: &View, cycle: u64, reach: Reach) -> u64 {
    let ticks = if rng.percent(10) { FAR } else { NEAR };
    let most = match reach {
        Reach::Over | Reach::Past => view.inside.last_sync + ticks * view.inside.divisor,
        _ => u64::MAX,
    };
    let free = view.inside.divisor == 0;
    let cycle = if free { cycle } else { cycle.min(most.max(view.latest)) };
    if rng.percent(97) {
        cycle.min(LAST_CYCLE)
    } else {
        cycle
    }
}
