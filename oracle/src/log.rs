//! The plain log of 02's 2.12: a queue of records, and the places that the shell reads them from. There is none in the Rust, so
//! both sides answer `log` lines by it.

use std::collections::VecDeque;

use crate::script::answer::hex;
use crate::script::words::{self, exactly, Read, Why};

/// How many records are held at most, and how many places there are.
pub const PLACES: usize = 6_000;

pub type Record = [u8; 10];

/// A `log` line of a script.
#[derive(Clone, Copy, Debug, PartialEq, Eq)]
pub enum LogLine {
    Add(Record),
    Release(u64),
    Read(usize),
}

impl LogLine {
    pub fn read(words: &[&str]) -> Read<Self> {
        let (name, a) = words.split_first().ok_or(Why::MissingWord)?;
        if !["add", "release", "read"].contains(name) {
            return Err(Why::UnknownCommand);
        }
        exactly(a, 1)?;
        Ok(match *name {
            "add" => Self::Add(words::bytes(a[0], 10)?.try_into().map_err(|_| Why::MalformedNumber)?),
            "release" => Self::Release(words::cycle(a[0])?),
            _ => Self::Read(words::below(a[0], PLACES as u64)? as usize),
        })
    }
}

#[derive(Default)]
pub struct Log {
    added: usize,
    held: VecDeque<Record>,
    /// What was written last to each place.
    places: Vec<Record>,
}

impl Log {
    pub fn answer(&mut self, line: LogLine) -> String {
        self.places.resize(PLACES, [0xa5; 10]);
        match line {
            LogLine::Add(_) if self.held.len() == PLACES => "refused 19".into(),
            LogLine::Add(record) => {
                let place = self.added % PLACES;
                self.places[place] = record;
                self.held.push_back(record);
                self.added += 1;
                format!("ok held={} place={place}", self.held.len())
            }
            LogLine::Release(count) if count > self.held.len() as u64 => "refused 20".into(),
            LogLine::Release(count) => {
                self.held.drain(..count as usize);
                format!("ok held={}", self.held.len())
            }
            LogLine::Read(place) => {
                self.check(place);
                format!("ok record={}", hex(&self.places[place]))
            }
        }
    }

    /// A record that is held stands, with its bytes, at the place of its turn.
    fn check(&self, place: usize) {
        let oldest = self.added - self.held.len();
        let turn = (place + PLACES - oldest % PLACES) % PLACES;
        assert!(self.held.get(turn).is_none_or(|record| *record == self.places[place]), "a record lost its place");
    }
}
