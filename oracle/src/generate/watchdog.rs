//! Random scripts of `wdt` lines: around the next event, around a tick, and within the four cycles of the sequence.

use super::rng::Rng;
use crate::watchdog::{Watchdog, Wdt};

const LAST_CYCLE: u64 = (1 << 62) - 1;

/// Oscillator ticks that one advance may ask for past the next event.
const FAR: u64 = 9_000;

fn value(rng: &mut Rng) -> u8 {
    let common = rng.pick(&[0x18, 0x18, 0x58, 0x98, 0x08, 0x48, 0x40, 0x00, 0xc8, 0x80]);
    let short = rng.pick(&[0x00, 0x08, 0x48, 0x40, 0x01, 0x09, 0x41, 0x4a, 0x21, 0x29, 0x2a, 0x2f]);
    let any = rng.byte();
    rng.weighted(&[(50, common), (35, short), (15, any)])
}

fn cycle(rng: &mut Rng, w: &Watchdog, advances: bool) -> u64 {
    let (latest, next) = w.aim();
    let soon = latest + rng.below(7);
    let tick = latest / 125 * 125 + 124 + rng.below(3);
    let out = rng.pick(&[latest.saturating_sub(1), LAST_CYCLE + 1, u64::MAX, LAST_CYCLE]);
    let wanted = match next {
        Some(next) => {
            let around = next - 1 + rng.below(3);
            let quiet = latest + rng.below(next.saturating_sub(latest).max(1));
            let far = next + rng.below(FAR * 125);
            match advances {
                true => rng.weighted(&[(30, around), (30, far), (15, soon), (10, tick), (14, quiet), (1, out)]),
                false => rng.weighted(&[(45, soon), (20, quiet), (15, next - 1), (8, tick), (10, around), (2, out)]),
            }
        }
        None => {
            let jump = latest.saturating_add(rng.below(1 << 40));
            rng.weighted(&[(80, soon), (10, tick), (6, jump), (4, out)])
        }
    };
    // An advance to the last cycle may ask for more ticks than can be worked.
    if advances && next.is_some_and(|next| wanted > next + FAR * 125 && wanted <= LAST_CYCLE) {
        return latest;
    }
    wanted
}

fn line(rng: &mut Rng, w: &Watchdog) -> String {
    let (before, over) = (cycle(rng, w, false), cycle(rng, w, true));
    match rng.below(1000) {
        0..=3 => "wdt new".into(),
        4..=9 => {
            rng.pick(&["wdt", "wdt read", "wdt wdr 1 2", "wdt write 100 5", "wdt advance 5 4097", "wdt bite 1"]).into()
        }
        10..=399 => format!("wdt write {:x} {before}", value(rng)),
        400..=699 => format!("wdt advance {over} {}", rng.pick(&[0, 9, 10, 19, 20, 30, 110, 110])),
        700..=779 => format!("wdt wdr {before}"),
        780..=879 => format!("wdt serve {before}"),
        880..=939 => format!("wdt read {before}"),
        _ => format!("wdt next {before}"),
    }
}

/// A script of so many lines, with `wdt state` after every one.
pub fn script(seed: u64, lines: usize) -> Vec<String> {
    let mut rng = Rng::new(seed);
    let mut w = Watchdog::default();
    let mut script = vec!["wdt new".to_string()];
    while script.len() < 2 * lines {
        let line = line(&mut rng, &w);
        let words: Vec<&str> = line.split(' ').skip(1).collect();
        match Wdt::read(&words) {
            Ok(Wdt::New) => w = Watchdog::default(),
            Ok(wdt) => drop(w.answer(wdt, &mut [0; 4096][..wdt.area()])),
            Err(_) => {}
        }
        script.extend([line, "wdt state".into()]);
    }
    script
}
