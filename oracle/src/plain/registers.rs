//! Reading, peeking and writing a register.

use super::bends::Bend;
use super::log::Log;
use super::setup::{Register, Word};
use super::tables::Top;
use super::timer::Timer;
use crate::script::Layout;

/// A compare is read without TEMP (02, 2.5).
fn passes_temp(word: Word) -> bool {
    matches!(word, Word::Compare(_))
}

impl Timer {
    fn word(&self, word: Word) -> u32 {
        match word {
            Word::Count => self.count,
            Word::Compare(channel) => self.buffer[channel],
            Word::Capture => self.capture,
        }
    }

    /// A control or force register as it reads back.
    fn control(&self, register: Register) -> u8 {
        match register {
            Register::ControlA => self.control_a,
            Register::ControlB => self.control_b,
            Register::Single => {
                let (com, wgm0, wgm1) = (self.control_a >> 6, self.control_a & 1, self.control_a >> 1 & 1);
                let force = if self.bent(Bend::SingleKeepsForce) { self.control_b & 0x80 } else { 0 };
                force | wgm0 << 6 | com << 4 | wgm1 << 3 | self.control_b & 7
            }
            _ => 0,
        }
    }

    pub fn read(&mut self, register: Register, cycle: u64, log: &mut Log) -> u8 {
        match register {
            Register::High(word) => {
                let direct = self.bent(Bend::HighReadDirect) || passes_temp(word);
                if direct {
                    (self.word(word) >> 8) as u8
                } else {
                    self.temp
                }
            }
            Register::Low(word) => {
                self.pass(cycle, log);
                if self.setup.config.wide && !self.bent(Bend::LowReadKeepsTemp) && !passes_temp(word) {
                    self.temp = (self.word(word) >> 8) as u8;
                }
                self.word(word) as u8
            }
            _ => {
                self.pass(cycle, log);
                self.control(register)
            }
        }
    }

    pub fn peek(&mut self, register: Register, cycle: u64, log: &mut Log) -> u8 {
        if self.bent(Bend::PeekKeepsSync) {
            let mut copy = self.clone();
            copy.pass(cycle, log);
            return copy.shown(register);
        }
        self.pass(cycle, log);
        if self.bent(Bend::PeekFillsTemp) {
            if let Register::Low(word) = register {
                self.temp = (self.word(word) >> 8) as u8;
            }
        }
        self.shown(register)
    }

    /// A byte as it stands, past TEMP.
    fn shown(&self, register: Register) -> u8 {
        match register {
            Register::High(word) => (self.word(word) >> 8) as u8,
            Register::Low(word) => self.word(word) as u8,
            _ => self.control(register),
        }
    }

    pub fn write(&mut self, register: Register, value: u8, cycle: u64, log: &mut Log) {
        match register {
            Register::High(_) => self.temp = value,
            Register::Low(word) => {
                self.pass(cycle, log);
                let high = if self.setup.config.wide { self.temp } else { 0 };
                self.commit(word, (high as u32) << 8 | value as u32);
            }
            Register::Force => {
                if self.unbuffered() || self.bent(Bend::ForceSyncsEverywhere) {
                    self.pass(cycle, log);
                }
                self.force(value, cycle, log);
            }
            _ => self.write_control(register, value, cycle, log),
        }
    }

    fn commit(&mut self, word: Word, value: u32) {
        match word {
            Word::Count => {
                self.count = value;
                self.blocked = !self.bent(Bend::WriteDoesNotBlock);
                if self.bent(Bend::WriteClearsOdometer) {
                    self.odometer = 0;
                }
            }
            Word::Compare(channel) => {
                self.buffer[channel] = value;
                if self.unbuffered() || self.bent(Bend::CompareNeverBuffered) {
                    self.active[channel] = value;
                }
            }
            Word::Capture => {
                if self.top_source() == Top::I || !self.bent(Bend::CaptureWriteGated) {
                    self.capture = value;
                }
            }
        }
    }

    fn write_control(&mut self, register: Register, value: u8, cycle: u64, log: &mut Log) {
        self.pass(cycle, log);
        self.store_control(register, value);
        if self.bent(Bend::ModeTurnsUp) {
            self.direction = 1;
        }
        if self.unbuffered() && !self.bent(Bend::ControlKeepsCompares) {
            self.active = self.buffer;
        }
        if !self.bent(Bend::ControlKeepsDrives) {
            for channel in self.acting() {
                self.record_drive(channel, cycle, log);
            }
        }
        if self.strobes(register) {
            self.force(value, cycle, log);
        }
    }

    fn store_control(&mut self, register: Register, value: u8) {
        let (wide, has_c) = (self.setup.config.wide, self.setup.channels[2].present);
        match (register, self.setup.config.layout) {
            (Register::ControlA, _) => {
                self.control_a = if has_c || self.bent(Bend::ControlAWhole) { value } else { value & 0xf3 }
            }
            (Register::ControlB, _) => {
                let kept = if wide { 0xdf } else { 0x0f };
                self.control_b = if self.bent(Bend::ControlBWhole) { value } else { value & kept };
            }
            (_, Layout::Single) => {
                let force = if self.bent(Bend::SingleKeepsForce) { value & 0x80 } else { 0 };
                self.control_b = force | value & 7;
                self.control_a = (value >> 4 & 3) << 6 | (value >> 3 & 1) << 1 | value >> 6 & 1;
            }
            _ => self.control_b = value & 7,
        }
    }

    /// Whether a control register also holds the force strobes.
    fn strobes(&self, register: Register) -> bool {
        let config = &self.setup.config;
        match register {
            Register::ControlA => config.foc == config.tccra,
            Register::ControlB => config.foc == config.tccrb,
            _ => config.layout == Layout::Single,
        }
    }

    /// Force strobes act only in N and C, without a flag.
    fn force(&mut self, value: u8, cycle: u64, log: &mut Log) {
        if !self.unbuffered() && !self.bent(Bend::ForceEverywhere) {
            return;
        }
        for channel in self.acting() {
            if value & self.setup.channels[channel].force == 0 {
                continue;
            }
            self.act(channel, self.count, self.top(), cycle, log);
            if self.bent(Bend::ForceRaisesFlag) {
                self.tifr |= self.setup.channels[channel].flag;
            }
        }
    }
}
