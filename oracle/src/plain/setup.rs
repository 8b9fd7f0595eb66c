//! An accepted configuration as the counter uses it: channels, flags and the register behind each address.

use super::bends::Bend;
use crate::script::{Config, Layout};

/// The unit behind a counted register.
#[derive(Clone, Copy, Debug, PartialEq, Eq)]
pub enum Word {
    Count,
    Compare(usize),
    Capture,
}

/// What an address is. A narrow timer's counted registers have no high byte and are `Low`.
#[derive(Clone, Copy, Debug, PartialEq, Eq)]
pub enum Register {
    ControlA,
    ControlB,
    Single,
    Force,
    Low(Word),
    High(Word),
}

#[derive(Clone, Copy, Debug)]
pub struct Channel {
    pub present: bool,
    pub flag: u8,
    pub pin: Option<u8>,
    pub force: u8,
}

pub struct Setup {
    pub config: Config,
    pub channels: [Channel; 3],
    pub registers: Vec<(u32, Register)>,
    pub bend: Option<Bend>,
}

impl Setup {
    pub fn new(config: &Config, bend: Option<Bend>) -> Self {
        Self { config: config.clone(), channels: channels(config), registers: registers(config), bend }
    }

    pub fn register(&self, address: u16) -> Option<Register> {
        self.registers.iter().find(|r| r.0 == address as u32).map(|r| r.1)
    }

    pub fn bent(&self, bend: Bend) -> bool {
        self.bend == Some(bend)
    }
}

fn channels(config: &Config) -> [Channel; 3] {
    let c = config.c.unwrap_or_default();
    [
        Channel { present: config.ocra.is_some(), flag: config.ocfa, pin: config.pina, force: config.foca },
        Channel { present: config.ocrb.is_some(), flag: config.ocfb, pin: config.pinb, force: config.focb },
        Channel { present: config.c.is_some(), flag: c.flag, pin: c.pin, force: c.force },
    ]
}

/// Every owned address. A force register that is a control has no entry of its own.
fn registers(config: &Config) -> Vec<(u32, Register)> {
    let mut found = match config.layout {
        Layout::Split => vec![(config.tccra as u32, Register::ControlA), (config.tccrb as u32, Register::ControlB)],
        _ => vec![(config.tccra as u32, Register::Single)],
    };
    if found.iter().all(|r| r.0 != config.foc as u32) {
        found.push((config.foc as u32, Register::Force));
    }
    let words = [
        (Some(config.tcnt), Word::Count),
        (config.ocra, Word::Compare(0)),
        (config.ocrb, Word::Compare(1)),
        (config.c.map(|c| c.ocr), Word::Compare(2)),
        (config.icr, Word::Capture),
    ];
    for (address, word) in words {
        let Some(address) = address else { continue };
        found.push((address as u32, Register::Low(word)));
        if config.wide {
            found.push((address as u32 + 1, Register::High(word)));
        }
    }
    found
}
