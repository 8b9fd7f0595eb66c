//! What is answered, and how it is written.

use std::fmt;

/// The next event: its cycle, and the TIFR bits that its tick will raise.
#[derive(Clone, Copy, Debug, PartialEq, Eq)]
pub struct Event {
    pub cycle: u64,
    pub flags: u8,
}

#[derive(Clone, Debug, PartialEq)]
pub enum Answer {
    Config,
    Refused(u8),
    Done {
        value: Option<u8>,
        next: Option<Event>,
        bytes: usize,
    },
    Paused {
        cycle: u64,
        next: Option<Event>,
        bytes: usize,
    },
    NoTimer,
    /// Of a late edge, in ticks (02, 2.9).
    Shift(i64),
    Pin {
        level: u8,
        volts: f64,
        changed: bool,
        contention: bool,
    },
    Next(Option<u64>),
    At(Option<u64>),
    Popped {
        owner: u8,
        tag: u8,
        at: u64,
        next: Option<u64>,
    },
    NothingDue,
    /// The judge alone: the Rust's own answer where the port must not follow it.
    Differs(Box<Answer>),
    /// The judge alone, without refusal 7: the Rust stopped with this message.
    Panics(String),
}

impl Answer {
    /// How many bytes of the area were written.
    pub fn bytes(&self) -> usize {
        match self {
            Self::Done { bytes, .. } | Self::Paused { bytes, .. } => *bytes,
            Self::Differs(answer) => answer.bytes(),
            _ => 0,
        }
    }

    /// A call's answer without what follows it of the timer: its refusal, the cycle where it paused, or its value.
    pub fn head(&self) -> String {
        match self {
            Self::Refused(number) => format!("refused {number}"),
            Self::Done { value, .. } => format!("ok value={}", value.map_or("-".into(), |v| format!("{v:02x}"))),
            Self::Paused { cycle, .. } => format!("paused cycle={cycle}"),
            Self::Differs(answer) => format!("differs {}", answer.head()),
            _ => panic!("{self:?} is no call's answer"),
        }
    }

    /// The answer as a line; `area` is the area after the call.
    pub fn line(&self, area: &[u8]) -> String {
        let records = || format!("bytes={} records={}", self.bytes(), hex(&area[..self.bytes()]));
        match self {
            Self::Config => "ok config".into(),
            Self::Refused(_) => self.head(),
            Self::Done { next, .. } | Self::Paused { next, .. } => {
                format!("{} {} {}", self.head(), event(*next), records())
            }
            Self::NoTimer => "no timer".into(),
            Self::Shift(ticks) => format!("ok shift={ticks}"),
            Self::Pin { level, volts, changed, contention } => {
                format!(
                    "ok level={level} volts={:016x} changed={} contention={}",
                    volts.to_bits(),
                    *changed as u8,
                    *contention as u8
                )
            }
            Self::Next(next) => format!("ok next={}", or_none(*next)),
            Self::At(at) => format!("ok at={}", or_none(*at)),
            Self::Popped { owner, tag, at, next } => {
                format!("ok owner={owner} tag={tag} at={at} next={}", or_none(*next))
            }
            Self::NothingDue => "ok none".into(),
            Self::Differs(answer) => format!("differs {}", answer.line(area)),
            Self::Panics(why) => format!("panics: {why}"),
        }
    }
}

fn event(next: Option<Event>) -> String {
    next.map_or("next=none flags=-".into(), |Event { cycle, flags }| format!("next={cycle} flags={flags:02x}"))
}

pub fn or_none(cycle: Option<u64>) -> String {
    cycle.map_or("none".into(), |c| c.to_string())
}

pub fn hex(bytes: &[u8]) -> String {
    if bytes.is_empty() {
        return "-".into();
    }
    bytes.iter().map(|b| format!("{b:02x}")).collect()
}

/// All that a `state` line shows. `None` is an absent compare, or a channel without a pin.
#[derive(Clone, Debug, PartialEq, Eq)]
pub struct State {
    pub count: u32,
    pub dir: i32,
    pub ocr: [Option<u32>; 3],
    pub buf: [Option<u32>; 3],
    pub icr: u32,
    pub temp: u8,
    pub oc: [u8; 3],
    pub drive: [Option<(u8, u8)>; 3],
    pub block: bool,
    pub tccra: u8,
    pub tccrb: u8,
    pub tifr: u8,
    pub timsk: u8,
    /// Overflow, A, B, capture, C.
    pub lines: [bool; 5],
    pub sync: u64,
    pub origin: u64,
    pub asleep: bool,
    pub prr: bool,
    pub tsm: bool,
    pub route: bool,
    pub latest: u64,
    /// The Rust has none.
    pub odometer: Option<u64>,
}

impl fmt::Display for State {
    fn fmt(&self, f: &mut fmt::Formatter) -> fmt::Result {
        let [ocr, buf] = [self.ocr, self.buf].map(|values| three(values, |v| v.to_string()));
        let oc = three(self.oc.map(Some), |v| v.to_string());
        let drive = three(self.drive, |(enable, value)| format!("{enable}{value}"));
        let lines: String = self.lines.iter().map(|&on| if on { '1' } else { '0' }).collect();
        write!(
            f,
            "state count={} dir={} ocr={ocr} buf={buf} icr={} temp={:02x}",
            self.count, self.dir, self.icr, self.temp
        )?;
        write!(
            f,
            " oc={oc} drive={drive} block={} tccra={:02x} tccrb={:02x}",
            self.block as u8, self.tccra, self.tccrb
        )?;
        write!(
            f,
            " tifr={:02x} timsk={:02x} lines={lines} sync={} origin={}",
            self.tifr, self.timsk, self.sync, self.origin
        )?;
        write!(
            f,
            " asleep={} prr={} tsm={} route={}",
            self.asleep as u8, self.prr as u8, self.tsm as u8, self.route as u8
        )?;
        write!(f, " latest={}", self.latest)?;
        self.odometer.map_or(Ok(()), |counts| write!(f, " odometer={counts}"))
    }
}

/// What a `distance` line shows, of the timer as it stands.
#[derive(Clone, Copy, Debug, PartialEq, Eq)]
pub struct Distance {
    pub ticks: u64,
    pub flags: u8,
    pub looked: u8,
}

impl fmt::Display for Distance {
    fn fmt(&self, f: &mut fmt::Formatter) -> fmt::Result {
        write!(f, "distance ticks={} flags={:02x} looked={}", self.ticks, self.flags, self.looked)
    }
}

fn three<T>(values: [Option<T>; 3], show: impl Fn(T) -> String) -> String {
    values.map(|v| v.map_or("-".into(), &show)).join(",")
}
