//! The `board` lines: an order to the ATmega328P board, and what is answered to it.

use std::fmt;

use super::answer::{hex, or_none, Answer, Event, State};
use super::words::{self, exactly, Read, Why};

/// A call on the board, without its cycle and its areas.
#[derive(Clone, Copy, Debug, PartialEq, Eq)]
pub enum Order {
    Advance(usize),
    Next(usize),
    Reset(usize),
    Edge { timer: usize, pin: u8, level: u8 },
    Route(usize, u8),
    AcOut(usize, u8),
    Read(u16),
    Peek(u16),
    Write(u16, u8),
    Sleep(u8),
    Wake,
    Prr(u8),
    Tifr(usize),
    Timsk(usize),
    WriteTifr(usize, u8),
    WriteTimsk(usize, u8),
}

#[derive(Clone, Copy, Debug, PartialEq, Eq)]
pub enum BoardLine {
    New,
    State,
    Call { order: Order, cycle: u64, area: usize },
}

/// The names of the orders, with how many words each has between its name and its cycle.
pub const ORDERS: [(&str, usize); 16] = [
    ("advance", 1),
    ("next", 1),
    ("reset", 1),
    ("edge", 3),
    ("route", 2),
    ("acout", 2),
    ("read", 1),
    ("peek", 1),
    ("write", 2),
    ("sleep", 1),
    ("wake", 0),
    ("prr", 1),
    ("tifr", 1),
    ("timsk", 1),
    ("wtifr", 2),
    ("wtimsk", 2),
];

impl BoardLine {
    pub fn read(words: &[&str]) -> Read<Self> {
        let (&name, rest) = words.split_first().ok_or(Why::MissingWord)?;
        match name {
            "new" => return exactly(rest, 0).map(|()| Self::New),
            "state" => return exactly(rest, 0).map(|()| Self::State),
            _ => {}
        }
        let (_, arguments) = ORDERS.iter().find(|o| o.0 == name).ok_or(Why::UnknownCommand)?;
        exactly(rest, arguments + 2)?;
        let (arguments, last) = rest.split_at(*arguments);
        let order = read_order(name, arguments)?;
        Ok(Self::Call { order, cycle: words::cycle(last[0])?, area: words::size(last[1])? })
    }
}

fn read_order(name: &str, a: &[&str]) -> Read<Order> {
    Ok(match name {
        "advance" => Order::Advance(words::timer(a[0])?),
        "next" => Order::Next(words::timer(a[0])?),
        "reset" => Order::Reset(words::timer(a[0])?),
        "edge" => {
            Order::Edge { timer: words::timer(a[0])?, pin: words::decimal8(a[1])?, level: words::decimal8(a[2])? }
        }
        "route" => Order::Route(words::timer(a[0])?, words::decimal8(a[1])?),
        "acout" => Order::AcOut(words::timer(a[0])?, words::decimal8(a[1])?),
        "read" => Order::Read(words::hex16(a[0])?),
        "peek" => Order::Peek(words::hex16(a[0])?),
        "write" => Order::Write(words::hex16(a[0])?, words::hex8(a[1])?),
        "sleep" => Order::Sleep(words::decimal8(a[0])?),
        "wake" => Order::Wake,
        "prr" => Order::Prr(words::hex8(a[0])?),
        "tifr" => Order::Tifr(words::timer(a[0])?),
        "timsk" => Order::Timsk(words::timer(a[0])?),
        "wtifr" => Order::WriteTifr(words::timer(a[0])?, words::hex8(a[1])?),
        "wtimsk" => Order::WriteTimsk(words::timer(a[0])?, words::hex8(a[1])?),
        _ => return Err(Why::UnknownCommand),
    })
}

/// An area for each timer.
pub type Areas = [Vec<u8>; 3];

/// What an order tells: its answer as a timer's call has it, and of each timer the next event and the bytes written.
#[derive(Clone, Debug, PartialEq)]
pub struct Told {
    pub answer: Answer,
    pub next: [Option<Event>; 3],
    pub bytes: [usize; 3],
}

impl Told {
    /// A refusal tells its number only.
    pub fn refused(number: u8) -> Self {
        Self { answer: Answer::Refused(number), next: [None; 3], bytes: [0; 3] }
    }

    /// The answer as a line; `areas` are the areas after the order.
    pub fn line(&self, areas: &Areas) -> String {
        let head = self.answer.head();
        if matches!(self.answer, Answer::Refused(_)) {
            return head;
        }
        let cycles = self.next.map(|event| or_none(event.map(|e| e.cycle))).join(",");
        let flags = self.next.map(|event| event.map_or("-".into(), |e| format!("{:02x}", e.flags))).join(",");
        let bytes = self.bytes.map(|n| n.to_string()).join(",");
        let records = [0, 1, 2].map(|i| hex(&areas[i][..self.bytes[i]])).join(",");
        format!("{head} next={cycles} flags={flags} bytes={bytes} records={records}")
    }
}

/// All that `board state` shows.
#[derive(Clone, Debug, PartialEq, Eq)]
pub struct BoardState {
    pub gtccr: u8,
    /// The cycle that the scheduler holds for each timer.
    pub sched: [Option<u64>; 3],
    pub timers: [State; 3],
}

impl fmt::Display for BoardState {
    fn fmt(&self, f: &mut fmt::Formatter) -> fmt::Result {
        write!(f, "board gtccr={:02x} sched={}", self.gtccr, self.sched.map(or_none).join(","))?;
        self.timers.iter().try_for_each(|timer| write!(f, "\n{timer}"))
    }
}
