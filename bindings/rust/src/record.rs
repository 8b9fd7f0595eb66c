//! The records that calls write: ten bytes each, from the start of the area.

use crate::answer::Refusal;

/// The bytes of one record.
pub const RECORD: usize = 10;

/// What an advance's one event needs at most.
pub const EVENT: usize = 11 * RECORD;

#[derive(Clone, Copy, Debug, PartialEq, Eq)]
pub enum Event {
    /// A compare output drives its pin, or no longer does.
    Pin { pin: u8, enable: bool, value: bool },
    /// TIFR bits raised, and the request lines overflow, A, B, capture and C as bits 4 to 0.
    Flags { raised: u8, lines: u8 },
    /// 1 compare A, 2 compare B, 3 overflow, 4 capture.
    Trigger { trigger: u8, id: u8 },
    /// A watchdog's time-out, an interrupt or a reset.
    Watchdog { reset: bool },
}

#[derive(Clone, Copy, Debug, PartialEq, Eq)]
pub struct Record {
    pub cycle: u64,
    pub event: Event,
}

impl Record {
    /// The record of ten bytes: kind (2 bits), cycle (62), body (16), most significant first. Bytes that no call writes, with
    /// a filler bit set or a watchdog's body that is neither 1 nor 2, are refused as in a dump.
    pub fn read(bytes: &[u8; RECORD]) -> Result<Self, Refusal> {
        let word = bytes[..8].iter().fold(0, |word, &b| word << 8 | b as u64);
        let body = u16::from_be_bytes([bytes[8], bytes[9]]);
        let high = bytes[8];
        let event = match word >> 62 {
            0 => Event::Pin { pin: high, enable: body & 0x80 != 0, value: body & 0x40 != 0 },
            1 => Event::Flags { raised: high, lines: bytes[9] >> 3 },
            2 => Event::Trigger { trigger: high >> 4, id: (body >> 4) as u8 },
            _ => Event::Watchdog { reset: body == 2 },
        };
        let record = Self { cycle: word & (1 << 62) - 1, event };
        if record.bytes() == *bytes {
            Ok(record)
        } else {
            Err(Refusal::Record)
        }
    }

    /// Its ten bytes, as a call would write them: of a cycle the low 62 bits.
    pub fn bytes(&self) -> [u8; RECORD] {
        let (kind, body) = match self.event {
            Event::Pin { pin, enable, value } => {
                (0, u16::from(pin) << 8 | u16::from(enable) << 7 | u16::from(value) << 6)
            }
            Event::Flags { raised, lines } => (1, u16::from(raised) << 8 | u16::from(lines << 3)),
            Event::Trigger { trigger, id } => (2, u16::from(trigger) << 12 | u16::from(id) << 4),
            Event::Watchdog { reset } => (3, 1 + u16::from(reset)),
        };
        let word = kind << 62 | self.cycle & (1 << 62) - 1;
        let mut bytes = [0; RECORD];
        bytes[..8].copy_from_slice(&u64::to_be_bytes(word));
        bytes[8..].copy_from_slice(&u16::to_be_bytes(body));
        bytes
    }
}

/// The records of the bytes that a call wrote, `&area[..written]`.
///
/// # Panics
/// Where no call writes such bytes; [`Record::read`] takes any.
pub fn records(written: &[u8]) -> impl Iterator<Item = Record> + '_ {
    let read = |r: &[u8]| Record::read(r.try_into().expect("chunks of ten bytes"));
    written.chunks_exact(RECORD).map(move |r| read(r).expect("a call writes whole records"))
}
