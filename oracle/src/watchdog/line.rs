//! A `wdt` line of a script.

use crate::script::words::{self, exactly, Read, Why};

#[derive(Clone, Copy, Debug, PartialEq, Eq)]
pub enum Wdt {
    New,
    State,
    Advance { cycle: u64, area: usize },
    Next(u64),
    Wdr(u64),
    Serve(u64),
    Read(u64),
    Write(u8, u64),
}

impl Wdt {
    pub fn read(words: &[&str]) -> Read<Self> {
        let (name, a) = words.split_first().ok_or(Why::MissingWord)?;
        let arguments = match *name {
            "new" | "state" => 0,
            "next" | "wdr" | "serve" | "read" => 1,
            "advance" | "write" => 2,
            _ => return Err(Why::UnknownCommand),
        };
        exactly(a, arguments)?;
        Ok(match *name {
            "new" => Self::New,
            "state" => Self::State,
            "next" => Self::Next(words::cycle(a[0])?),
            "wdr" => Self::Wdr(words::cycle(a[0])?),
            "serve" => Self::Serve(words::cycle(a[0])?),
            "read" => Self::Read(words::cycle(a[0])?),
            "advance" => Self::Advance { cycle: words::cycle(a[0])?, area: words::size(a[1])? },
            _ => Self::Write(words::hex8(a[0])?, words::cycle(a[1])?),
        })
    }

    /// The bytes of the area that it is given.
    pub fn area(self) -> usize {
        match self {
            Self::Advance { area, .. } => area,
            _ => 0,
        }
    }

    /// The cycle of a call; `new` and `state` have none.
    pub fn cycle(self) -> Option<u64> {
        match self {
            Self::New | Self::State => None,
            Self::Advance { cycle, .. } => Some(cycle),
            Self::Next(cycle) | Self::Wdr(cycle) | Self::Serve(cycle) | Self::Read(cycle) => Some(cycle),
            Self::Write(_, cycle) => Some(cycle),
        }
    }
}
