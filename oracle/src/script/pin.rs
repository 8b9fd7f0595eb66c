//! The `pin` line: one pin, to be resolved.

use super::words::{self, Read, Why};

#[derive(Clone, Copy, Debug, PartialEq, Eq)]
pub enum Ext {
    Float,
    Low,
    High,
    Analog,
}

#[derive(Clone, Debug)]
pub struct PinLine {
    pub vcc: f64,
    pub ext: Ext,
    /// Read only with `ext=analog`.
    pub volts: f64,
    pub dir: u8,
    pub out: u8,
    pub pullup: u8,
    pub pulldown: u8,
    pub ove: u8,
    pub ovv: u8,
    pub reserved: u8,
    pub ddoe: u8,
    pub ddov: u8,
    pub level: u8,
}

const KEYS: [&str; 13] =
    ["vcc", "ext", "volts", "dir", "out", "pullup", "pulldown", "ove", "ovv", "reserved", "ddoe", "ddov", "level"];

impl PinLine {
    pub fn read(words: &[&str]) -> Read<Self> {
        let mut pin = Self {
            vcc: 5.0,
            ext: Ext::Float,
            volts: 0.0,
            dir: 0,
            out: 0,
            pullup: 0,
            pulldown: 0,
            ove: 0,
            ovv: 0,
            reserved: 0,
            ddoe: 0,
            ddov: 0,
            level: 0,
        };
        words::pairs(words, &KEYS, |key, value| pin.set(key, value))?;
        Ok(pin)
    }

    fn set(&mut self, key: &str, value: &str) -> Read<()> {
        let bit = match key {
            "vcc" => return words::volts(value).map(|v| self.vcc = v),
            "volts" => return words::volts(value).map(|v| self.volts = v),
            "ext" => return ext(value).map(|e| self.ext = e),
            "dir" => &mut self.dir,
            "out" => &mut self.out,
            "pullup" => &mut self.pullup,
            "pulldown" => &mut self.pulldown,
            "ove" => &mut self.ove,
            "ovv" => &mut self.ovv,
            "reserved" => &mut self.reserved,
            "ddoe" => &mut self.ddoe,
            "ddov" => &mut self.ddov,
            "level" => &mut self.level,
            _ => return Err(Why::UnknownKey),
        };
        *bit = words::decimal8(value)?;
        Ok(())
    }
}

fn ext(word: &str) -> Read<Ext> {
    match word {
        "float" => Ok(Ext::Float),
        "low" => Ok(Ext::Low),
        "high" => Ok(Ext::High),
        "analog" => Ok(Ext::Analog),
        _ => Err(Why::UnknownName),
    }
}
