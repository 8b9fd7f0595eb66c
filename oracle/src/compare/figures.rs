//! What a comparison has covered.

use std::collections::{BTreeMap, BTreeSet};
use std::fmt;

use super::account::Account;
use crate::judge::{Judge, View};
use crate::script::board::ORDERS;
use crate::script::command::CALLS;
use crate::script::play::read_line;
use crate::script::words::Why;
use crate::script::{presets, Command, Layout, Side};

/// From here on a cycle is counted as near the last one, 2^62 - 1.
const NEAR_LAST: u64 = (1 << 62) - (1 << 16);

/// The mode changes that one call can make: a control byte of a split layout changes one half of the mode
/// number, a reset goes to mode 0.
const NARROW_CHANGES: usize = 8 * (3 + 1) + 3;
const WIDE_CHANGES: usize = 16 * (3 + 3) + 9;

const KINDS: [&str; 4] = ["wide", "narrow", "single", "single without WGM"];

/// What the watchdog has to answer somewhere: its refusals, a pause, and each of its records.
const WATCHDOG: [&str; 7] = ["refused 2", "refused 3", "refused 6", "refused 17", "paused", "interrupt", "reset"];

#[derive(Default)]
pub struct Figures {
    scripts: usize,
    seeds: Option<(u64, u64)>,
    /// Lines by their first word; calls are all of them but `state`, `distance`, `shift` and the configurations.
    lines: BTreeMap<String, usize>,
    timers: BTreeMap<&'static str, usize>,
    refused: BTreeMap<u8, usize>,
    /// Lists of writes, by why they ended.
    lists: BTreeMap<String, usize>,
    paused: usize,
    records: usize,
    /// The most records that one tick wrote.
    most: usize,
    /// Of `WATCHDOG`.
    watchdog: BTreeSet<&'static str>,
    /// Commands that were accepted, those of two words by both; presets; why lines could not be read.
    accepted: BTreeSet<String>,
    presets: BTreeSet<String>,
    reasons: BTreeSet<String>,
    /// Accepted calls by width and mode of the timer as they left it.
    modes: BTreeMap<(bool, usize), usize>,
    mode: Option<usize>,
    changes: BTreeSet<(bool, usize, usize)>,
    /// Sleep, power reduction and TSM held together.
    halts: BTreeSet<[bool; 3]>,
    past_event: usize,
    near_last: usize,
    account: Account,
}

impl Figures {
    /// Counts a line with the judge's answer to it and the judge as it then stands.
    pub fn count(&mut self, line: &str, answer: &str, judge: &Judge) {
        let mut words = line.split(' ').filter(|w| !w.is_empty());
        let (name, second) = (words.next().unwrap_or_default(), words.next().unwrap_or_default());
        self.count_said(name, second, answer);
        let name = match (name, second) {
            _ if answer.starts_with("error") => "unreadable",
            ("board", "new" | "state") => "board state",
            _ => name,
        };
        *self.lines.entry(name.into()).or_default() += 1;
        if let Some(number) = answer.strip_prefix("refused ") {
            *self.refused.entry(number.parse().unwrap_or_default()).or_default() += 1;
        }
        self.count_list(name, answer);
        let Some(view) = judge.view().filter(|_| name != "wdt" && name != "board") else { return };
        if answer == "ok config" {
            *self.timers.entry(kind(&view)).or_default() += 1;
            self.mode = None;
            self.account.configured();
        }
        if let Some((_, rest)) = answer.split_once("bytes=") {
            let bytes = rest.split(' ').next().and_then(|b| b.parse::<usize>().ok()).unwrap_or_default();
            self.records += bytes / 10;
            if name != "writes" {
                self.most = self.most.max(most_in_a_tick(answer));
            }
            self.paused += answer.starts_with("paused") as usize;
            self.count_accepted(&view);
            self.count_ticks(line, answer, &view, judge);
        }
    }

    /// Why a list ended; its calls are not seen one by one, so that a sum and a change of mode end with it.
    fn count_list(&mut self, name: &str, answer: &str) {
        let Some((_, why)) = answer.split_once(" why=").filter(|_| name == "writes") else { return };
        let why = why.split(" bytes=").next().unwrap_or_default();
        let why = why.split(" cycle=").next().unwrap_or_default();
        *self.lists.entry(why.into()).or_default() += 1;
        self.mode = None;
        self.account.configured();
    }

    /// The sums of 2.11, where the judge has an odometer.
    fn count_ticks(&mut self, line: &str, answer: &str, view: &View, judge: &Judge) {
        let odometer = judge.state().and_then(|state| state.odometer);
        let (Ok(Some(Command::Call { call, cycle, .. })), Some(odometer)) = (read_line(line.as_bytes()), odometer)
        else {
            return;
        };
        let records = answer.rsplit("records=").next().filter(|&hex| hex != "-").unwrap_or_default();
        self.account.hear(call, cycle, records, view, odometer);
    }

    fn count_said(&mut self, name: &str, second: &str, answer: &str) {
        if let Some((_, why)) = answer.strip_prefix("error line ").and_then(|rest| rest.split_once(": ")) {
            self.reasons.insert(why.into());
        } else if name == "preset" {
            self.presets.insert(second.into());
        }
        if ["ok", "paused", "state ", "distance ", "board ", "wdt "].iter().any(|start| answer.starts_with(start)) {
            let two = ["sched", "board", "door", "log", "wdt"].contains(&name);
            self.accepted.insert(if two { format!("{name} {second}") } else { name.into() });
        }
        if name == "wdt" {
            self.watchdog.extend(WATCHDOG.iter().filter(|said| watchdog_says(answer, said)));
        }
    }

    fn count_accepted(&mut self, view: &View) {
        let (wide, t) = (view.config.wide, &view.inside);
        *self.modes.entry((wide, t.mode)).or_default() += 1;
        if let Some(before) = self.mode.replace(t.mode).filter(|&m| m != t.mode) {
            self.changes.insert((wide, before, t.mode));
        }
        self.halts.insert([t.sleep_halted, t.power_reduced, t.tsm]);
        self.past_event += view.next.is_some_and(|next| next <= view.latest) as usize;
        self.near_last += (view.latest > NEAR_LAST) as usize;
    }

    pub fn close_script(&mut self, seed: u64) {
        self.scripts += 1;
        self.seeds = Some((self.seeds.map_or(seed, |s| s.0), seed));
    }

    /// All that a script can reach, and whether it did.
    fn aims(&self) -> Vec<(&'static str, String, bool)> {
        let mut aims = Vec::new();
        let mut aim = |what, which: String, reached| aims.push((what, which, reached));
        let refusals = (1..=12).chain([16, 17, 18, 19, 20, 22]);
        refusals.for_each(|n| aim("refusals", n.to_string(), self.refused.contains_key(&n)));
        (0..8).for_each(|m| aim("narrow modes", m.to_string(), self.modes.contains_key(&(false, m))));
        (0..16).for_each(|m| aim("wide modes", m.to_string(), self.modes.contains_key(&(true, m))));
        KINDS.iter().for_each(|&kind| aim("layouts", kind.into(), self.timers.contains_key(kind)));
        presets::names().for_each(|name| aim("presets", name.into(), self.presets.contains(name)));
        commands().for_each(|name| aim("commands", name.clone(), self.accepted.contains(&name)));
        WATCHDOG.iter().for_each(|&said| aim("the watchdog's answers", said.into(), self.watchdog.contains(said)));
        Why::ALL.iter().for_each(|why| aim("reasons", why.to_string(), self.reasons.contains(&why.to_string())));
        aim("paused advances", "any".into(), self.paused > 0);
        aim("ticks of eleven records", "any".into(), self.most == 11);
        aims
    }

    /// How many of each kind a script reaches.
    pub fn reached(&self) -> String {
        let aims = self.aims();
        let kinds = aims.chunk_by(|a, b| a.0 == b.0).map(|kind| {
            let reached = kind.iter().filter(|aim| aim.2).count();
            format!("{} {reached} of {}", kind[0].0, kind.len())
        });
        format!("{} calls: {}", self.calls(), kinds.collect::<Vec<_>>().join(", "))
    }

    pub fn left_out(&self) -> Vec<String> {
        self.aims().into_iter().filter(|aim| !aim.2).map(|(what, which, _)| format!("{what}: {which}")).collect()
    }

    pub fn calls(&self) -> usize {
        let other = |name: &str| ["state", "distance", "shift", "config", "preset", "board state"].contains(&name);
        self.lines.iter().filter(|(name, _)| !other(name)).map(|(_, n)| n).sum()
    }
}

/// The most records of one cycle among those that an answer shows.
fn most_in_a_tick(answer: &str) -> usize {
    let records = answer.rsplit("records=").next().unwrap_or_default();
    let cycles = records.as_bytes().chunks_exact(20).map(|r| std::str::from_utf8(&r[..16]).unwrap_or_default());
    let cycles: Vec<u64> = cycles.map(|c| u64::from_str_radix(c, 16).unwrap_or_default() << 2).collect();
    cycles.chunk_by(|a, b| a == b).map(<[u64]>::len).max().unwrap_or_default()
}

/// Whether an answer of the watchdog is the one named; a record ends with its body, 1 or 2.
fn watchdog_says(answer: &str, said: &str) -> bool {
    match said {
        "paused" => answer.starts_with("paused"),
        "interrupt" => answer.ends_with("0001"),
        "reset" => answer.ends_with("0002"),
        _ => answer == said,
    }
}

/// Every command of a script that can be accepted.
fn commands() -> impl Iterator<Item = String> {
    let others = ["config", "preset", "state", "distance", "shift", "pin", "writes", "item", "record"];
    let scheduler = ["sched at", "sched cancel", "sched is", "sched pop", "sched clear"];
    let beside = ["door one", "door two", "door edge", "log add", "log release", "log read"];
    let board = ORDERS.iter().map(|order| order.0).chain(["new", "state"]).map(|name| format!("board {name}"));
    let watchdog =
        ["new", "state", "advance", "next", "read", "write", "wdr", "serve"].map(|name| format!("wdt {name}"));
    let single = CALLS.iter().map(|call| call.0).chain(others).chain(scheduler).chain(beside).map(String::from);
    single.chain(board).chain(watchdog)
}

fn kind(view: &View) -> &'static str {
    match view.config.layout {
        Layout::Split if view.config.wide => KINDS[0],
        Layout::Split => KINDS[1],
        Layout::Single => KINDS[2],
        Layout::Single0 => KINDS[3],
    }
}

pub fn listed<K: fmt::Display>(entries: impl Iterator<Item = (K, usize)>) -> String {
    entries.map(|(key, count)| format!("{key}: {count}")).collect::<Vec<_>>().join(", ")
}

impl fmt::Display for Figures {
    fn fmt(&self, f: &mut fmt::Formatter) -> fmt::Result {
        let (first, last) = self.seeds.unwrap_or_default();
        let modes = |wide: bool| listed(self.modes.iter().filter(move |(k, _)| k.0 == wide).map(|(k, &n)| (k.1, n)));
        let changes = |wide: bool| self.changes.iter().filter(|c| c.0 == wide).count();
        writeln!(f, "{} calls in {} scripts, seeds {first} to {last}, no disagreement", self.calls(), self.scripts)?;
        writeln!(f, "lines: {}", listed(self.lines.iter().map(|(k, &n)| (k, n))))?;
        writeln!(f, "timers: {}", listed(self.timers.iter().map(|(k, &n)| (k, n))))?;
        writeln!(f, "refused by number: {}", listed(self.refused.iter().map(|(k, &n)| (k, n))))?;
        writeln!(f, "lists of writes by their end: {}", listed(self.lists.iter().map(|(k, &n)| (k, n))))?;
        writeln!(f, "paused advances: {}, records: {}", self.paused, self.records)?;
        writeln!(f, "accepted calls by narrow mode: {}", modes(false))?;
        writeln!(f, "accepted calls by wide mode: {}", modes(true))?;
        writeln!(
            f,
            "mode changes: {} of {NARROW_CHANGES} narrow, {} of {WIDE_CHANGES} wide",
            changes(false),
            changes(true)
        )?;
        writeln!(f, "sleep, power reduction and TSM together: {} of 8", self.halts.len())?;
        writeln!(
            f,
            "accepted calls with the event past: {}, within 2^16 of the last cycle: {}",
            self.past_event, self.near_last
        )?;
        write!(f, "sums of ticks that close: {}, the longest over {} ticks", self.account.closed, self.account.ticks)
    }
}
