//! The plain door of 02's 2.13: two rules, edges by cycle, and when the close is due. There is none in the Rust, so both sides
//! answer `door` lines by it.

use crate::script::words::{self, exactly, Read, Why};

const LAST_CYCLE: u64 = (1 << 62) - 1;

/// The longest hold, quiet time and cap.
const LONGEST: u64 = 1 << 40;

#[derive(Clone, Copy, Debug, PartialEq, Eq)]
pub enum Rule {
    One { hold: u64 },
    Two { hold: u64, quiet: u64, cap: u64 },
}

/// A `door` line of a script.
#[derive(Clone, Copy, Debug, PartialEq, Eq)]
pub enum DoorLine {
    Set(Rule),
    Edge(u64),
}

impl DoorLine {
    pub fn read(words: &[&str]) -> Read<Self> {
        let (name, a) = words.split_first().ok_or(Why::MissingWord)?;
        let arguments = match *name {
            "one" | "edge" => 1,
            "two" => 3,
            _ => return Err(Why::UnknownCommand),
        };
        exactly(a, arguments)?;
        Ok(match *name {
            "edge" => Self::Edge(words::cycle(a[0])?),
            "one" => Self::Set(Rule::One { hold: words::cycle(a[0])? }),
            _ => {
                let [hold, quiet, cap] = [a[0], a[1], a[2]].map(words::cycle);
                Self::Set(Rule::Two { hold: hold?, quiet: quiet?, cap: cap? })
            }
        })
    }
}

/// A hold: the edge that began it, the last that rearmed it, and when its close is due.
#[derive(Clone, Copy)]
struct Hold {
    first: u64,
    rearmed: u64,
    due: u64,
}

struct Door {
    rule: Rule,
    hold: Option<Hold>,
    latest: u64,
}

/// The door of the last rule that was accepted.
#[derive(Default)]
pub struct Doors(Option<Door>);

impl Rule {
    fn accepted(self) -> bool {
        let fits = |cycles: u64| (1..=LONGEST).contains(&cycles);
        match self {
            Self::One { hold } => fits(hold),
            Self::Two { hold, quiet, cap } => fits(hold) && fits(quiet) && fits(cap) && cap >= hold,
        }
    }

    fn rearms(self, since: u64) -> bool {
        match self {
            Self::One { .. } => true,
            Self::Two { quiet, .. } => since >= quiet,
        }
    }

    fn holds(self, first: u64, rearmed: u64) -> Hold {
        let due = match self {
            Self::One { hold } => rearmed + hold,
            Self::Two { hold, cap, .. } => (rearmed + hold).min(first + cap),
        };
        Hold { first, rearmed, due }
    }
}

impl Door {
    fn edge(&mut self, cycle: u64) -> String {
        if cycle > LAST_CYCLE {
            return "refused 2".into();
        }
        if cycle < self.latest {
            return "refused 3".into();
        }
        self.latest = cycle;
        let hold = match self.hold {
            Some(hold) if cycle < hold.due => match self.rule.rearms(cycle - hold.rearmed) {
                true => self.rule.holds(hold.first, cycle),
                false => hold,
            },
            _ => self.rule.holds(cycle, cycle),
        };
        self.hold = Some(hold);
        format!("ok due={}", hold.due)
    }
}

impl Doors {
    pub fn answer(&mut self, line: DoorLine) -> String {
        match line {
            DoorLine::Set(rule) if rule.accepted() => {
                self.0 = Some(Door { rule, hold: None, latest: 0 });
                "ok due=none".into()
            }
            DoorLine::Set(_) => "refused 22".into(),
            DoorLine::Edge(cycle) => self.0.as_mut().map_or("no door".into(), |door| door.edge(cycle)),
        }
    }

    /// The latest edge's cycle and the due, to aim by.
    pub fn aim(&self) -> (u64, u64) {
        self.0.as_ref().map_or((0, 0), |door| (door.latest, door.hold.map_or(0, |hold| hold.due)))
    }
}
