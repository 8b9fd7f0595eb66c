//! A list of register writes (02, 2.1), worked by single calls of a side: for each item the advance to its cycle and then the write,
//! each in what is left of the area.

use crate::script::answer::hex;
use crate::script::words::{self, exactly, Read, Why};
use crate::script::{Answer, Call, Side};

const LAST_CYCLE: u64 = (1 << 62) - 1;

/// The most items of the list that `item` lines make up.
const MOST: usize = 400;

#[derive(Clone, Copy, Debug, PartialEq, Eq)]
pub struct Item {
    pub address: u16,
    pub value: u8,
    pub cycle: u64,
}

/// A `writes` line of a script: the size of its area, and its list where the line has it.
#[derive(Clone, Debug, PartialEq, Eq)]
pub struct WritesLine {
    pub area: usize,
    pub list: Option<Vec<u8>>,
}

impl Item {
    pub fn read(words: &[&str]) -> Read<Self> {
        exactly(words, 3)?;
        Ok(Self {
            address: words::hex10(words[0])?,
            value: words::hex8(words[1])?,
            cycle: words::below(words[2], LAST_CYCLE + 1)?,
        })
    }

    /// The item in ten bytes: address (10 bits), value (8), cycle (62).
    pub fn of(bytes: &[u8]) -> Self {
        let bits = bytes.iter().fold(0u128, |bits, &byte| bits << 8 | byte as u128);
        Self { address: (bits >> 70) as u16, value: (bits >> 62) as u8, cycle: bits as u64 & LAST_CYCLE }
    }

    pub fn bytes(self) -> [u8; 10] {
        let bits = (self.address as u128) << 70 | (self.value as u128) << 62 | self.cycle as u128;
        bits.to_be_bytes()[6..].try_into().expect("ten bytes")
    }
}

impl WritesLine {
    pub fn read(words: &[&str]) -> Read<Self> {
        if words.len() != 1 {
            exactly(words, 2)?;
        }
        let area = words::size(words[0])?;
        let list = words.get(1).map(|word| words::bytes(word, 250)).transpose()?;
        Ok(Self { area, list })
    }

    /// Whether its list is of ten bytes an item.
    pub fn of_tens(&self) -> bool {
        self.list.as_ref().is_none_or(|bytes| bytes.len() % 10 == 0)
    }
}

/// The list that `item` lines make up.
#[derive(Default)]
pub struct Items(Vec<Item>);

impl Items {
    pub fn add(&mut self, item: Item) -> Read<String> {
        if self.0.len() == MOST {
            return Err(Why::ExtraWord);
        }
        self.0.push(item);
        Ok(format!("ok items={}", self.0.len()))
    }

    /// The items of a line: its own, or those made up, which are then gone.
    pub fn of(&mut self, line: &WritesLine) -> Vec<Item> {
        match &line.list {
            Some(bytes) => bytes.chunks(10).map(Item::of).collect(),
            None => std::mem::take(&mut self.0),
        }
    }
}

/// Why a list ended, as it is written.
fn why(answer: &Answer) -> Option<String> {
    match answer {
        Answer::Paused { cycle, .. } => Some(format!("paused cycle={cycle}")),
        Answer::Refused(number) => Some(format!("refused number={number}")),
        _ => None,
    }
}

/// Works the items on the area; the answer, and how many bytes were written.
pub fn work(side: &mut impl Side, items: &[Item], area: &mut [u8]) -> (String, usize) {
    let (mut done, mut bytes, mut ended) = (0, 0, None);
    'items: for item in items {
        for call in [Call::Advance, Call::Write(item.address, item.value)] {
            let answer = side.call(call, item.cycle, &mut area[bytes..]);
            bytes += answer.bytes();
            ended = why(&answer);
            if ended.is_some() {
                break 'items;
            }
        }
        done += 1;
    }
    let why = ended.unwrap_or("all".into());
    (format!("ok done={done} why={why} bytes={bytes} records={}", hex(&area[..bytes])), bytes)
}
