//! One line of a script as a command.

use super::board::BoardLine;
use super::config::Config;
use super::pin::PinLine;
use super::words::{self, exactly, Read, Why};
use crate::door::DoorLine;
use crate::lists::{Item, WritesLine};
use crate::log::LogLine;
use crate::watchdog::Wdt;

/// A call on the timer, without its cycle and its area.
#[derive(Clone, Copy, Debug, PartialEq, Eq)]
pub enum Call {
    Advance,
    Next,
    Reset,
    Wake,
    Read(u16),
    Peek(u16),
    Write(u16, u8),
    Tifr,
    Timsk,
    WriteTifr(u8),
    WriteTimsk(u8),
    Edge { pin: u8, level: u8 },
    Route(u8),
    AcOut(u8),
    Sleep(u8),
    Prr(u16),
    Tsm(u8),
    Presc(u8),
}

#[derive(Clone, Copy, Debug, PartialEq, Eq)]
pub enum Sched {
    At(u8, u8, u64),
    Cancel(u8, u8),
    Is(u8, u8),
    Pop(u64),
    Clear,
}

#[derive(Clone, Debug)]
pub enum Command {
    Config(Box<Config>),
    Call { call: Call, cycle: u64, area: usize },
    State,
    Distance,
    Shift { first: u64, second: u64 },
    Pin(PinLine),
    Sched(Sched),
    Wdt(Wdt),
    Board(BoardLine),
    Writes(WritesLine),
    Item(Item),
    Door(DoorLine),
    Log(LogLine),
    Record(Option<usize>),
}

/// The names of the calls, with how many words each has between its name and its cycle.
pub const CALLS: [(&str, usize); 18] = [
    ("advance", 0),
    ("next", 0),
    ("reset", 0),
    ("wake", 0),
    ("read", 1),
    ("peek", 1),
    ("write", 2),
    ("tifr", 0),
    ("timsk", 0),
    ("wtifr", 1),
    ("wtimsk", 1),
    ("edge", 2),
    ("route", 1),
    ("acout", 1),
    ("sleep", 1),
    ("prr", 1),
    ("tsm", 1),
    ("presc", 1),
];

impl Command {
    /// Reads the words of a line that has at least one.
    pub fn read(words: &[&str]) -> Read<Self> {
        let rest = &words[1..];
        match words[0] {
            "config" => Config::read(rest).map(|c| Self::Config(Box::new(c))),
            "preset" => Config::read_preset(rest).map(|c| Self::Config(Box::new(c))),
            "state" => exactly(rest, 0).map(|()| Self::State),
            "distance" => exactly(rest, 0).map(|()| Self::Distance),
            "shift" => {
                exactly(rest, 2)?;
                Ok(Self::Shift { first: words::cycle(rest[0])?, second: words::cycle(rest[1])? })
            }
            "pin" => PinLine::read(rest).map(Self::Pin),
            "sched" => read_sched(rest).map(Self::Sched),
            "wdt" => Wdt::read(rest).map(Self::Wdt),
            "board" => BoardLine::read(rest).map(Self::Board),
            "writes" => WritesLine::read(rest).map(Self::Writes),
            "item" => Item::read(rest).map(Self::Item),
            "door" => DoorLine::read(rest).map(Self::Door),
            "log" => LogLine::read(rest).map(Self::Log),
            "record" if rest.is_empty() => Ok(Self::Record(None)),
            "record" => exactly(rest, 1).and_then(|()| words::timer(rest[0])).map(|timer| Self::Record(Some(timer))),
            name => {
                let (_, arguments) = CALLS.iter().find(|c| c.0 == name).ok_or(Why::UnknownCommand)?;
                exactly(rest, arguments + 2)?;
                let (arguments, last) = rest.split_at(*arguments);
                let call = read_call(name, arguments)?;
                Ok(Self::Call { call, cycle: words::cycle(last[0])?, area: words::size(last[1])? })
            }
        }
    }
}

fn read_call(name: &str, a: &[&str]) -> Read<Call> {
    Ok(match name {
        "advance" => Call::Advance,
        "next" => Call::Next,
        "reset" => Call::Reset,
        "wake" => Call::Wake,
        "read" => Call::Read(words::hex16(a[0])?),
        "peek" => Call::Peek(words::hex16(a[0])?),
        "write" => Call::Write(words::hex16(a[0])?, words::hex8(a[1])?),
        "tifr" => Call::Tifr,
        "timsk" => Call::Timsk,
        "wtifr" => Call::WriteTifr(words::hex8(a[0])?),
        "wtimsk" => Call::WriteTimsk(words::hex8(a[0])?),
        "edge" => Call::Edge { pin: words::decimal8(a[0])?, level: words::decimal8(a[1])? },
        "route" => Call::Route(words::decimal8(a[0])?),
        "acout" => Call::AcOut(words::decimal8(a[0])?),
        "sleep" => Call::Sleep(words::decimal8(a[0])?),
        "prr" => Call::Prr(words::hex16(a[0])?),
        "tsm" => Call::Tsm(words::decimal8(a[0])?),
        "presc" => Call::Presc(words::hex8(a[0])?),
        _ => return Err(Why::UnknownCommand),
    })
}

fn read_sched(words: &[&str]) -> Read<Sched> {
    let (name, a) = words.split_first().ok_or(Why::MissingWord)?;
    let key = |a: &[&str]| Ok((words::decimal8(a[0])?, words::decimal8(a[1])?));
    let arguments = match *name {
        "at" => 3,
        "cancel" | "is" => 2,
        "pop" => 1,
        "clear" => 0,
        _ => return Err(Why::UnknownCommand),
    };
    exactly(a, arguments)?;
    Ok(match *name {
        "at" => {
            let (owner, tag) = key(a)?;
            Sched::At(owner, tag, words::cycle(a[2])?)
        }
        "cancel" => key(a).map(|(owner, tag)| Sched::Cancel(owner, tag))?,
        "is" => key(a).map(|(owner, tag)| Sched::Is(owner, tag))?,
        "pop" => Sched::Pop(words::cycle(a[0])?),
        _ => Sched::Clear,
    })
}
