//! A timer's configuration as a script gives it, accepted or not.

use std::fmt;

use super::presets;
use super::words::{self, Read, Why};

#[derive(Clone, Copy, Debug, Default, PartialEq, Eq)]
pub enum Layout {
    #[default]
    Split,
    Single,
    /// Single without WGM.
    Single0,
}

#[derive(Clone, Copy, Debug, Default, PartialEq, Eq)]
pub enum ClockTable {
    #[default]
    Sync,
    Timer2,
}

#[derive(Clone, Copy, Debug, Default, PartialEq, Eq)]
pub struct CompareC {
    pub ocr: u16,
    pub flag: u8,
    pub pin: Option<u8>,
    pub force: u8,
}

#[derive(Clone, Debug, Default, PartialEq, Eq)]
pub struct Config {
    pub id: u8,
    pub wide: bool,
    pub layout: Layout,
    pub tccra: u16,
    pub tccrb: u16,
    pub foc: u16,
    pub foca: u8,
    pub focb: u8,
    pub tcnt: u16,
    pub ocra: Option<u16>,
    pub ocrb: Option<u16>,
    pub icr: Option<u16>,
    pub tov: u8,
    pub ocfa: u8,
    pub ocfb: u8,
    pub icf: u8,
    pub pina: Option<u8>,
    pub pinb: Option<u8>,
    pub c: Option<CompareC>,
    pub icp: Option<u8>,
    pub t: Option<u8>,
    pub clock: ClockTable,
    pub group: u8,
    pub prr: u16,
    pub sleeprun: u8,
}

const KEYS: [&str; 25] = [
    "id", "wide", "layout", "tccra", "tccrb", "foc", "foca", "focb", "tcnt", "ocra", "ocrb", "icr", "tov", "ocfa",
    "ocfb", "icf", "pina", "pinb", "c", "icp", "t", "clock", "group", "prr", "sleeprun",
];

impl Config {
    /// `config`: every key once.
    pub fn read(words: &[&str]) -> Read<Self> {
        let mut config = Self::default();
        let given = config.take(words)?;
        if given.contains(&false) {
            return Err(Why::MissingWord);
        }
        Ok(config)
    }

    /// `preset NAME`, then the keys that differ.
    pub fn read_preset(words: &[&str]) -> Read<Self> {
        let (name, rest) = words.split_first().ok_or(Why::MissingWord)?;
        let keys = presets::keys(name).ok_or(Why::UnknownName)?;
        let mut config = Self::read(&keys.split_whitespace().collect::<Vec<_>>()).expect("a preset that can be read");
        config.take(rest)?;
        Ok(config)
    }

    fn take(&mut self, words: &[&str]) -> Read<Vec<bool>> {
        words::pairs(words, &KEYS, |key, value| self.set(key, value))
    }

    fn set(&mut self, key: &str, value: &str) -> Read<()> {
        match key {
            "id" => self.id = words::decimal8(value)?,
            "wide" => self.wide = words::bit(value)?,
            "layout" => self.layout = layout(value)?,
            "tccra" => self.tccra = words::hex16(value)?,
            "tccrb" => self.tccrb = words::hex16(value)?,
            "foc" => self.foc = words::hex16(value)?,
            "foca" => self.foca = words::hex8(value)?,
            "focb" => self.focb = words::hex8(value)?,
            "tcnt" => self.tcnt = words::hex16(value)?,
            "ocra" => self.ocra = words::optional(value, words::hex16)?,
            "ocrb" => self.ocrb = words::optional(value, words::hex16)?,
            "icr" => self.icr = words::optional(value, words::hex16)?,
            "tov" => self.tov = words::hex8(value)?,
            "ocfa" => self.ocfa = words::hex8(value)?,
            "ocfb" => self.ocfb = words::hex8(value)?,
            "icf" => self.icf = words::hex8(value)?,
            "pina" => self.pina = words::optional(value, words::decimal8)?,
            "pinb" => self.pinb = words::optional(value, words::decimal8)?,
            "c" => self.c = words::optional(value, compare_c)?,
            "icp" => self.icp = words::optional(value, words::decimal8)?,
            "t" => self.t = words::optional(value, words::decimal8)?,
            "clock" => self.clock = clock(value)?,
            "group" => self.group = words::hex8(value)?,
            "prr" => self.prr = words::hex16(value)?,
            "sleeprun" => self.sleeprun = words::hex8(value)?,
            _ => return Err(Why::UnknownKey),
        }
        Ok(())
    }
}

fn layout(word: &str) -> Read<Layout> {
    match word {
        "split" => Ok(Layout::Split),
        "single" => Ok(Layout::Single),
        "single0" => Ok(Layout::Single0),
        _ => Err(Why::UnknownName),
    }
}

fn clock(word: &str) -> Read<ClockTable> {
    match word {
        "sync" => Ok(ClockTable::Sync),
        "t2" => Ok(ClockTable::Timer2),
        _ => Err(Why::UnknownName),
    }
}

fn compare_c(word: &str) -> Read<CompareC> {
    let parts: Vec<&str> = word.split(':').collect();
    let [ocr, flag, pin, force] = parts[..] else {
        return Err(Why::MalformedNumber);
    };
    Ok(CompareC {
        ocr: words::hex16(ocr)?,
        flag: words::hex8(flag)?,
        pin: words::optional(pin, words::decimal8)?,
        force: words::hex8(force)?,
    })
}

/// An absent unit as `-`, else as `show` writes it.
fn dash<T>(unit: Option<T>, show: impl Fn(T) -> String) -> String {
    unit.map_or("-".into(), show)
}

fn hex(value: u16) -> String {
    format!("{value:X}")
}

impl fmt::Display for Config {
    /// The `config` line that reads back as this configuration.
    fn fmt(&self, f: &mut fmt::Formatter) -> fmt::Result {
        let pin = |p: Option<u8>| dash(p, |p| p.to_string());
        let layout = match self.layout {
            Layout::Split => "split",
            Layout::Single => "single",
            Layout::Single0 => "single0",
        };
        let c = dash(self.c, |c| format!("{:X}:{:X}:{}:{:X}", c.ocr, c.flag, pin(c.pin), c.force));
        let clock = if self.clock == ClockTable::Sync { "sync" } else { "t2" };
        write!(f, "config id={} wide={} layout={layout}", self.id, self.wide as u8)?;
        write!(
            f,
            " tccra={:X} tccrb={:X} foc={:X} foca={:X} focb={:X}",
            self.tccra, self.tccrb, self.foc, self.foca, self.focb
        )?;
        write!(
            f,
            " tcnt={:X} ocra={} ocrb={} icr={}",
            self.tcnt,
            dash(self.ocra, hex),
            dash(self.ocrb, hex),
            dash(self.icr, hex)
        )?;
        write!(f, " tov={:X} ocfa={:X} ocfb={:X} icf={:X}", self.tov, self.ocfa, self.ocfb, self.icf)?;
        write!(f, " pina={} pinb={} c={c} icp={} t={}", pin(self.pina), pin(self.pinb), pin(self.icp), pin(self.t))?;
        write!(f, " clock={clock} group={:X} prr={:X} sleeprun={:X}", self.group, self.prr, self.sleeprun)
    }
}
