//! The calls and what they answer.

use std::fmt;

use crate::raw;

/// Every call of the timer, with its arguments.
#[derive(Clone, Copy, Debug, PartialEq, Eq)]
pub enum Call {
    Advance,
    Next,
    Read(u16),
    Peek(u16),
    Write(u16, u8),
    Tifr,
    Timsk,
    WriteTifr(u8),
    WriteTimsk(u8),
    Edge { pin: u8, level: u8 },
    Output(u8),
    Route(u8),
    Sleep(u8),
    Wake,
    Reduce(u16),
    Tsm(u8),
    Prescale(u8),
    Reset,
}

/// Why a call was turned away. Nothing has changed then: neither the timer, board, watchdog, door or log nor a byte of an area.
#[derive(Clone, Copy, Debug, PartialEq, Eq)]
pub enum Refusal {
    /// 1: the configuration breaks a rule.
    Configuration = 1,
    /// 2: the cycle is over 2^62 − 1.
    CycleTooLarge,
    /// 3: the cycle is below the latest accepted.
    CyclePassed,
    /// 4: no register of the timer has the address.
    Address,
    /// 5: a level that is not 0 or 1, or a sleep mode over 7.
    Level,
    /// 6: the next event is due at or before the cycle: advance first.
    EventDue,
    /// 7: the counter is halted asleep.
    Asleep,
    /// 8: the records exceed the area.
    AreaTooSmall,
    /// 13: a log's length is no multiple of ten or over 2^30, or a record of it is none.
    Record = 13,
    /// 14: a record's cycle is below the one before it.
    RecordOrder,
    /// 15: a record's cycle is over 2^48 − 1.
    RecordTooLate,
    /// 16: no timer of the board has a register at the address, and it is not GTCCR's.
    Nowhere,
    /// 17: a watchdog's prescaler from 10 to 15.
    Period,
    /// 18: two edges that lie 32,767 ticks or more apart.
    TooFarApart,
    /// 19: the log holds 6,000 records.
    LogFull,
    /// 20: the log holds fewer records than are to be released.
    NotHeld,
    /// 21: the log's area has not 60,000 bytes.
    LogArea,
    /// 22: a hold, quiet or cap of zero or over 2^40, or a cap below the hold.
    Rule,
}

/// The next event: its cycle, and the flags, as TIFR bits, that its tick will raise.
#[derive(Clone, Copy, Debug, PartialEq, Eq)]
pub struct Next {
    pub cycle: u64,
    pub flags: u8,
}

/// What an accepted call yields, or why it was not.
#[derive(Clone, Copy, Debug, PartialEq, Eq)]
pub enum Answer {
    Refused(Refusal),
    Done,
    /// A byte read.
    Value(u8),
    /// The next event, or none where the counter does not run.
    Next(Option<Next>),
    /// An advance came to its cycle: the flags of the then next event, 0 where there is none.
    Reached(u8),
    /// The sync cycle of an advance that stopped before a tick whose records did not fit, and the flags of the then next event.
    Paused(u64, u8),
}

/// The answer, how many bytes were written from the area's start, and the next event of the timer as an accepted call left it,
/// none where the counter does not run.
#[derive(Clone, Copy, Debug, PartialEq, Eq)]
pub struct Outcome {
    pub answer: Answer,
    pub written: usize,
    pub next: Option<Next>,
}

impl Refusal {
    /// The number in the table of refusals.
    pub fn number(self) -> u8 {
        self as u8
    }

    /// What to do.
    pub fn advice(self) -> &'static str {
        match self {
            Self::Configuration => "mend the configuration",
            Self::CycleTooLarge => "start the cycles lower: they end at 2^62 - 1",
            Self::CyclePassed => "call in the order of the cycles, after a pause from its cycle on",
            Self::Address => "look at the configuration's addresses",
            Self::Level => "give a level of 0 or 1, a sleep mode of 0 to 7",
            Self::EventDue => "advance to the cycle first",
            Self::Asleep => "wake the timer first",
            Self::AreaTooSmall => "lend a larger area: 110 bytes hold any call's records",
            Self::Record => "give whole records as the calls wrote them, at most 2^30 bytes of them",
            Self::RecordOrder => "give the records of one timer, in the order of their cycles",
            Self::RecordTooLate => "start the cycles lower: a dump's end at 2^48 - 1",
            Self::Nowhere => "give the data address of GTCCR or of a timer's register, TIFRn or TIMSKn",
            Self::Period => "give a prescaler of 0 to 9",
            Self::TooFarApart => "ask for edges that lie nearer each other, or divide the way",
            Self::LogFull => "read and release some of the oldest records first",
            Self::NotHeld => "release at most as many as are held",
            Self::LogArea => "lend an area of 60,000 bytes",
            Self::Rule => "give 1 to 2^40 cycles, and a cap no shorter than the hold",
        }
    }

    #[cold]
    pub(crate) fn of(number: u8) -> Self {
        match number {
            1 => Self::Configuration,
            2 => Self::CycleTooLarge,
            3 => Self::CyclePassed,
            4 => Self::Address,
            5 => Self::Level,
            6 => Self::EventDue,
            7 => Self::Asleep,
            8 => Self::AreaTooSmall,
            13 => Self::Record,
            14 => Self::RecordOrder,
            15 => Self::RecordTooLate,
            16 => Self::Nowhere,
            17 => Self::Period,
            18 => Self::TooFarApart,
            19 => Self::LogFull,
            20 => Self::NotHeld,
            21 => Self::LogArea,
            22 => Self::Rule,
            _ => unreachable!("no call of this crate is refused with {number}"),
        }
    }
}

impl fmt::Display for Refusal {
    fn fmt(&self, f: &mut fmt::Formatter) -> fmt::Result {
        write!(f, "refused {}: {}", self.number(), self.advice())
    }
}

impl std::error::Error for Refusal {}

impl Call {
    /// The call in numbers: its kind is its place in this enum.
    #[inline]
    pub(crate) fn asked(self, cycle: u64) -> raw::Asked {
        let (kind, pin, value, address) = match self {
            Self::Advance => (0, 0, 0, 0),
            Self::Next => (1, 0, 0, 0),
            Self::Read(address) => (2, 0, 0, address),
            Self::Peek(address) => (3, 0, 0, address),
            Self::Write(address, value) => (4, 0, value, address),
            Self::Tifr => (5, 0, 0, 0),
            Self::Timsk => (6, 0, 0, 0),
            Self::WriteTifr(value) => (7, 0, value, 0),
            Self::WriteTimsk(value) => (8, 0, value, 0),
            Self::Edge { pin, level } => (9, pin, level, 0),
            Self::Output(level) => (10, 0, level, 0),
            Self::Route(level) => (11, 0, level, 0),
            Self::Sleep(mode) => (12, 0, mode, 0),
            Self::Wake => (13, 0, 0, 0),
            Self::Reduce(mask) => (14, 0, 0, mask),
            Self::Tsm(level) => (15, 0, level, 0),
            Self::Prescale(mask) => (16, 0, mask, 0),
            Self::Reset => (17, 0, 0, 0),
        };
        raw::Asked { kind, pin, value, address, cycle }
    }
}

/// The cycle that a reply says where no event is to come.
const NEVER: u64 = u64::MAX;

impl Next {
    #[inline]
    pub(crate) fn of(reply: &raw::Reply) -> Option<Self> {
        if reply.number == 0 {
            Self::at(reply.next, reply.flags)
        } else {
            None
        }
    }

    #[inline]
    pub(crate) fn at(cycle: u64, flags: u8) -> Option<Self> {
        (cycle != NEVER).then_some(Self { cycle, flags })
    }
}

impl Answer {
    #[inline]
    pub(crate) fn of(reply: &raw::Reply) -> Self {
        match (reply.number, reply.what) {
            (0, 0) => Self::Done,
            (0, 1) => Self::Value(reply.value as u8),
            (0, 2) => Self::Next(Some(Next { cycle: reply.value, flags: reply.flags })),
            (0, 3) => Self::Next(None),
            (0, 6) => Self::Reached(reply.flags),
            (0, _) => Self::Paused(reply.value, reply.flags),
            (number, _) => Self::Refused(Refusal::of(number)),
        }
    }
}
