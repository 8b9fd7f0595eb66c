//! A list of register writes in one call.

use crate::answer::{Answer, Call, Refusal};
use crate::raw;
use crate::timer::Timer;

/// A register write: time passes up to its cycle, then the register takes the value.
#[derive(Clone, Copy, Debug, PartialEq, Eq)]
pub struct Write {
    pub address: u16,
    pub value: u8,
    pub cycle: u64,
}

/// Why a list ended.
#[derive(Clone, Copy, Debug, PartialEq, Eq)]
pub enum Why {
    AllDone,
    /// An item's advance stopped at this sync cycle, before a tick whose records did not fit.
    Paused(u64),
    /// An item was turned away; its advance stands as far as it got.
    Refused(Refusal),
}

/// The items done, the bytes written from the area's start, and why the list ended.
#[derive(Clone, Copy, Debug, PartialEq, Eq)]
pub struct Written {
    pub done: usize,
    pub written: usize,
    pub why: Why,
}

impl Why {
    /// Why a list ends with an answer, or nothing where it goes on.
    fn of(answer: Answer) -> Option<Self> {
        match answer {
            Answer::Refused(why) => Some(Self::Refused(why)),
            Answer::Paused(sync, _) => Some(Self::Paused(sync)),
            _ => None,
        }
    }
}

const LAST_ADDRESS: u16 = (1 << 10) - 1;
const LAST_CYCLE: u64 = (1 << 62) - 1;

impl Write {
    /// The item's ten bytes: address (10 bits), value (8), cycle (62). Nothing where it has no room for the write.
    fn packed(&self) -> Option<[u8; 10]> {
        if self.address > LAST_ADDRESS || self.cycle > LAST_CYCLE {
            return None;
        }
        let bits = (self.address as u128) << 70 | (self.value as u128) << 62 | self.cycle as u128;
        Some(bits.to_be_bytes()[6..].try_into().expect("ten of sixteen bytes"))
    }
}

impl Timer {
    /// Works the writes one after the other, up to the first that pauses or is turned away. State and records are
    /// those of the single calls, each in what is left of the area.
    ///
    /// ```
    /// use paddlemauve::{Config, Timer, Why, Write, Written};
    ///
    /// let mut area = [0; 110];
    /// let mut timer = Timer::new(&Config::M328P_TIMER0)?;
    /// let list = [
    ///     Write { address: 0x47, value: 124, cycle: 0 },
    ///     Write { address: 0x44, value: 0x02, cycle: 0 },
    ///     Write { address: 0x45, value: 0x03, cycle: 0 },
    /// ];
    /// assert_eq!(timer.writes(&list, &mut area), Written { done: 3, written: 0, why: Why::AllDone });
    /// assert_eq!(timer.next(0)?.map(|next| next.cycle), Some(64));
    /// # Ok::<(), paddlemauve::Refusal>(())
    /// ```
    pub fn writes(&mut self, list: &[Write], area: &mut [u8]) -> Written {
        let bytes: Vec<u8> = list.iter().map_while(Write::packed).flatten().collect();
        // SAFETY: the timer came from the library and only the library has changed it, so it is valid; list and area are
        // lent for the call alone.
        let ended = unsafe { raw::paddlemauve_writes(self.raw.timer, raw::List::of(&bytes), raw::Area::of(area)) };
        self.raw = ended.timer;
        let (done, mut written) = (ended.done as usize, ended.reply.written as usize);
        let mut why = Why::of(Answer::of(&ended.reply));
        if let (None, Some(write)) = (why, list.get(done)) {
            // No item has room for this write: its advance stands, unless the cycle is too large, and no register has the address.
            let advanced = self.call(Call::Advance, write.cycle, &mut area[written..]);
            written += advanced.written;
            why = Why::of(advanced.answer).or(Some(Why::Refused(Refusal::Address)));
        }
        Written { done, written, why: why.unwrap_or(Why::AllDone) }
    }
}
