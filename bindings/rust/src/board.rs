//! The ATmega328P board, held by its owner and lent to the library for each order.

use crate::answer::{Answer, Next, Refusal};
use crate::timer::{Advanced, Timer};
use crate::{layout, raw};

/// A timer of the board, by its id.
#[derive(Clone, Copy, Debug, PartialEq, Eq)]
pub enum Id {
    Timer0,
    Timer1,
    Timer2,
}

/// Every order to the board, with its arguments: to one timer by its id, to a register by its data address, or to all three.
#[derive(Clone, Copy, Debug, PartialEq, Eq)]
pub enum Order {
    Advance(Id),
    Next(Id),
    Reset(Id),
    Edge {
        id: Id,
        pin: u8,
        level: u8,
    },
    Route(Id, u8),
    Output(Id, u8),
    Read(u16),
    Peek(u16),
    Write(u16, u8),
    Sleep(u8),
    Wake,
    /// The sheet's PRR byte.
    Reduce(u8),
    Tifr(Id),
    Timsk(Id),
    WriteTifr(Id, u8),
    WriteTimsk(Id, u8),
}

/// The answer, and how many bytes were written from the start of each timer's area.
#[derive(Clone, Copy, Debug, PartialEq, Eq)]
pub struct BoardOutcome {
    pub answer: Answer,
    pub written: [usize; 3],
}

/// Timer0, Timer1 and Timer2 of the ATmega328P with GTCCR and the scheduler of their next events. It can only be made by
/// [`Board::new`] and changed by the orders, so the library's one premise, that the board is valid, always holds.
///
/// ```
/// use paddlemauve::{Advanced, Board, Id, Next};
///
/// let mut board = Board::new();
/// let mut area = [0; 110];
/// board.write(0x45, 0x01, 0, [&mut area, &mut [], &mut []])?; // TCCR0B: clock / 1
/// assert_eq!(board.nexts(), [Some(Next { cycle: 1, flags: 0x06 }), None, None]);
/// assert_eq!(board.advance(Id::Timer0, 1, &mut area)?, Advanced::Done { written: 30, flags: 0x01 });
/// assert_eq!(board.read(0x35, 1)?, 0x06); // TIFR0
/// board.write(0x43, 0x81, 1, Default::default())?; // GTCCR: TSM holds all three
/// assert_eq!(board.nexts(), [None; 3]);
/// # Ok::<(), paddlemauve::Refusal>(())
/// ```
#[derive(Clone, Debug, PartialEq, Eq)]
pub struct Board {
    raw: raw::Board,
    nexts: [Option<Next>; 3],
}

impl Order {
    /// The order in numbers: its kind is its place in this enum.
    #[inline]
    fn ordered(self, cycle: u64) -> raw::Ordered {
        let none = raw::Ordered { kind: 0, id: 0, pin: 0, value: 0, address: 0, cycle };
        match self {
            Self::Advance(id) => raw::Ordered { kind: 0, id: id as u8, ..none },
            Self::Next(id) => raw::Ordered { kind: 1, id: id as u8, ..none },
            Self::Reset(id) => raw::Ordered { kind: 2, id: id as u8, ..none },
            Self::Edge { id, pin, level } => raw::Ordered { kind: 3, id: id as u8, pin, value: level, ..none },
            Self::Route(id, value) => raw::Ordered { kind: 4, id: id as u8, value, ..none },
            Self::Output(id, value) => raw::Ordered { kind: 5, id: id as u8, value, ..none },
            Self::Read(address) => raw::Ordered { kind: 6, address, ..none },
            Self::Peek(address) => raw::Ordered { kind: 7, address, ..none },
            Self::Write(address, value) => raw::Ordered { kind: 8, address, value, ..none },
            Self::Sleep(value) => raw::Ordered { kind: 9, value, ..none },
            Self::Wake => raw::Ordered { kind: 10, ..none },
            Self::Reduce(value) => raw::Ordered { kind: 11, value, ..none },
            Self::Tifr(id) => raw::Ordered { kind: 12, id: id as u8, ..none },
            Self::Timsk(id) => raw::Ordered { kind: 13, id: id as u8, ..none },
            Self::WriteTifr(id, value) => raw::Ordered { kind: 14, id: id as u8, value, ..none },
            Self::WriteTimsk(id, value) => raw::Ordered { kind: 15, id: id as u8, value, ..none },
        }
    }
}

impl Board {
    /// A fresh board at cycle 0.
    ///
    /// # Panics
    /// Where the library that was linked does not lay a board out as this crate does.
    #[allow(clippy::new_without_default)]
    pub fn new() -> Self {
        layout::check_board();
        Self::start()
    }

    pub(crate) fn start() -> Self {
        // SAFETY: the function takes nothing, and layout::check_board has found the library's layout to be ours.
        Self { raw: unsafe { raw::paddlemauve_board() }, nexts: [None; 3] }
    }

    /// Any order, at its cycle, with an area for each timer's records.
    #[inline]
    pub fn call(&mut self, order: Order, cycle: u64, [zero, one, two]: [&mut [u8]; 3]) -> BoardOutcome {
        let [zero, one, two] = [zero, one, two].map(raw::Area::of);
        // SAFETY: the board came from the library and only the library has changed it, so it is valid; the areas are lent
        // for the call alone.
        let reply = unsafe { raw::paddlemauve_board_call(&mut self.raw, order.ordered(cycle), zero, one, two) };
        let raw::Replied { number, what, flags, value, timers } = reply;
        if number == 0 {
            self.nexts = timers.map(|t| Next::at(t.next, t.flags));
        }
        let answer = Answer::of(&raw::Reply { number, what, flags, value, written: 0, next: 0 });
        BoardOutcome { answer, written: timers.map(|t| t.written as usize) }
    }

    /// The next event of each timer with its flags, as they stand after the last order; none where the counter does not run.
    pub fn nexts(&self) -> [Option<Next>; 3] {
        self.nexts
    }

    /// A timer passes time up to a cycle, or to the first tick whose records do not fit its area.
    pub fn advance(&mut self, id: Id, cycle: u64, area: &mut [u8]) -> Result<Advanced, Refusal> {
        let (answer, written) = self.own(Order::Advance(id), id, cycle, area)?;
        match answer {
            Answer::Reached(flags) => Ok(Advanced::Done { written, flags }),
            Answer::Paused(sync, flags) => Ok(Advanced::Paused { sync, written, flags }),
            other => unreachable!("an advance answers {other:?}"),
        }
    }

    /// A timer's next event with its flags, or none where the counter does not run; the cycle becomes its latest.
    pub fn next(&mut self, id: Id, cycle: u64) -> Result<Option<Next>, Refusal> {
        match self.own(Order::Next(id), id, cycle, &mut [])?.0 {
            Answer::Next(at) => Ok(at),
            other => unreachable!("next answers {other:?}"),
        }
    }

    /// A timer is reset; yields the bytes of the records.
    pub fn reset(&mut self, id: Id, cycle: u64, area: &mut [u8]) -> Result<usize, Refusal> {
        self.own(Order::Reset(id), id, cycle, area).map(|(_, written)| written)
    }

    /// A pin's edge to a level, told to a timer: a capture, a tick of the T pin, or nothing; yields the bytes of the records.
    pub fn edge(&mut self, id: Id, pin: u8, level: u8, cycle: u64, area: &mut [u8]) -> Result<usize, Refusal> {
        self.own(Order::Edge { id, pin, level }, id, cycle, area).map(|(_, written)| written)
    }

    /// The comparator's output is routed to a timer's capture (1) or not (0).
    pub fn route(&mut self, id: Id, level: u8, cycle: u64) -> Result<(), Refusal> {
        self.own(Order::Route(id, level), id, cycle, &mut []).map(|_| ())
    }

    /// The comparator's output, told to a timer, takes a level; yields the bytes of the records.
    pub fn output(&mut self, id: Id, level: u8, cycle: u64, area: &mut [u8]) -> Result<usize, Refusal> {
        self.own(Order::Output(id, level), id, cycle, area).map(|(_, written)| written)
    }

    /// A timer's TIFR.
    pub fn tifr(&mut self, id: Id, cycle: u64) -> Result<u8, Refusal> {
        self.byte(Order::Tifr(id), cycle)
    }

    /// A timer's TIMSK.
    pub fn timsk(&mut self, id: Id, cycle: u64) -> Result<u8, Refusal> {
        self.byte(Order::Timsk(id), cycle)
    }

    /// Ones clear bits of a timer's TIFR.
    pub fn write_tifr(&mut self, id: Id, ones: u8, cycle: u64) -> Result<(), Refusal> {
        self.silent(Order::WriteTifr(id, ones), cycle)
    }

    /// A timer's TIMSK takes a byte.
    pub fn write_timsk(&mut self, id: Id, mask: u8, cycle: u64) -> Result<(), Refusal> {
        self.silent(Order::WriteTimsk(id, mask), cycle)
    }

    /// The byte at a data address as a program reads it: a timer's register, TIFRn, TIMSKn or GTCCR.
    pub fn read(&mut self, address: u16, cycle: u64) -> Result<u8, Refusal> {
        self.byte(Order::Read(address), cycle)
    }

    /// The byte at a data address; TEMP is left as it is.
    pub fn peek(&mut self, address: u16, cycle: u64) -> Result<u8, Refusal> {
        self.byte(Order::Peek(address), cycle)
    }

    /// The byte at a data address is written; yields the bytes of each timer's records.
    pub fn write(&mut self, address: u16, value: u8, cycle: u64, areas: [&mut [u8]; 3]) -> Result<[usize; 3], Refusal> {
        let BoardOutcome { answer, written } = self.call(Order::Write(address, value), cycle, areas);
        accepted(answer).map(|_| written)
    }

    /// All three sleep in a mode; refused with the lowest number where one would refuse, and then none does.
    pub fn sleep(&mut self, mode: u8, cycle: u64) -> Result<(), Refusal> {
        self.silent(Order::Sleep(mode), cycle)
    }

    /// All three wake.
    pub fn wake(&mut self, cycle: u64) -> Result<(), Refusal> {
        self.silent(Order::Wake, cycle)
    }

    /// PRR takes a byte, and each timer obeys its bit.
    pub fn reduce(&mut self, prr: u8, cycle: u64) -> Result<(), Refusal> {
        self.silent(Order::Reduce(prr), cycle)
    }

    /// A copy of a timer as it stands, not synced.
    pub fn timer(&self, id: Id) -> Timer {
        // SAFETY: the board came from the library and only the library has changed it, so its timers are valid.
        Timer { raw: unsafe { raw::paddlemauve_hold(self.raw.timers[id as usize]) } }
    }

    /// GTCCR as it stands.
    pub fn gtccr(&self) -> u8 {
        self.raw.gtccr
    }

    /// The earliest cycle that the scheduler holds, or none where no timer has an event.
    pub fn earliest(&self) -> Option<u64> {
        (self.raw.scheduler.count > 0).then_some(self.raw.scheduler.next)
    }

    /// An order to one timer, with its area alone.
    fn own(&mut self, order: Order, id: Id, cycle: u64, area: &mut [u8]) -> Result<(Answer, usize), Refusal> {
        let mut areas: [&mut [u8]; 3] = Default::default();
        areas[id as usize] = area;
        let BoardOutcome { answer, written } = self.call(order, cycle, areas);
        accepted(answer).map(|answer| (answer, written[id as usize]))
    }

    /// An order that yields a byte and writes no record.
    fn byte(&mut self, order: Order, cycle: u64) -> Result<u8, Refusal> {
        match accepted(self.call(order, cycle, Default::default()).answer)? {
            Answer::Value(byte) => Ok(byte),
            other => unreachable!("{order:?} answers {other:?}"),
        }
    }

    /// An order that yields nothing and writes no record.
    fn silent(&mut self, order: Order, cycle: u64) -> Result<(), Refusal> {
        accepted(self.call(order, cycle, Default::default()).answer).map(|_| ())
    }
}

fn accepted(answer: Answer) -> Result<Answer, Refusal> {
    match answer {
        Answer::Refused(why) => Err(why),
        other => Ok(other),
    }
}
