//! The words of a line: numbers by the size of their place, key and value, and why a line cannot be read.

use std::fmt;
use std::str::FromStr;

#[derive(Clone, Copy, Debug, PartialEq, Eq)]
pub enum Why {
    UnknownCommand,
    UnknownKey,
    UnknownName,
    MissingWord,
    ExtraWord,
    MalformedNumber,
    NumberTooLarge,
    LineTooLong,
}

impl Why {
    pub const ALL: [Self; 8] = [
        Self::UnknownCommand,
        Self::UnknownKey,
        Self::UnknownName,
        Self::MissingWord,
        Self::ExtraWord,
        Self::MalformedNumber,
        Self::NumberTooLarge,
        Self::LineTooLong,
    ];
}

impl fmt::Display for Why {
    fn fmt(&self, f: &mut fmt::Formatter) -> fmt::Result {
        f.write_str(match self {
            Self::UnknownCommand => "unknown command",
            Self::UnknownKey => "unknown key",
            Self::UnknownName => "unknown name",
            Self::MissingWord => "missing word",
            Self::ExtraWord => "extra word",
            Self::MalformedNumber => "malformed number",
            Self::NumberTooLarge => "number too large",
            Self::LineTooLong => "line too long",
        })
    }
}

pub type Read<T> = Result<T, Why>;

/// A number in `radix`, at most `most`. Leading zeros are allowed, a sign is not.
fn number(word: &str, radix: u32, most: u64) -> Read<u64> {
    if word.is_empty() {
        return Err(Why::MalformedNumber);
    }
    let mut value = Some(0u64);
    for c in word.chars() {
        let digit = c.to_digit(radix).ok_or(Why::MalformedNumber)? as u64;
        value = value.and_then(|v| v.checked_mul(radix as u64)?.checked_add(digit));
    }
    value.filter(|&v| v <= most).ok_or(Why::NumberTooLarge)
}

pub fn decimal8(word: &str) -> Read<u8> {
    number(word, 10, 0xff).map(|v| v as u8)
}

/// A timer of the board.
pub fn timer(word: &str) -> Read<usize> {
    number(word, 10, 2).map(|v| v as usize)
}

pub fn bit(word: &str) -> Read<bool> {
    number(word, 10, 1).map(|v| v == 1)
}

pub fn cycle(word: &str) -> Read<u64> {
    number(word, 10, u64::MAX)
}

pub fn size(word: &str) -> Read<usize> {
    number(word, 10, 4096).map(|v| v as usize)
}

/// A decimal number below a bound.
pub fn below(word: &str, bound: u64) -> Read<u64> {
    number(word, 10, bound - 1)
}

pub fn hex8(word: &str) -> Read<u8> {
    number(word, 16, 0xff).map(|v| v as u8)
}

pub fn hex16(word: &str) -> Read<u16> {
    number(word, 16, 0xffff).map(|v| v as u16)
}

/// Ten bits, as an item of a list has for its address.
pub fn hex10(word: &str) -> Read<u16> {
    number(word, 16, 0x3ff).map(|v| v as u16)
}

/// Bytes, two digits each, at most so many; `-` is none.
pub fn bytes(word: &str, most: usize) -> Read<Vec<u8>> {
    if word == "-" {
        return Ok(Vec::new());
    }
    if word.len() % 2 != 0 {
        return Err(Why::MalformedNumber);
    }
    if word.len() / 2 > most {
        return Err(Why::NumberTooLarge);
    }
    let digit = |glyph: u8| (glyph as char).to_digit(16).ok_or(Why::MalformedNumber);
    word.as_bytes().chunks(2).map(|two| Ok((digit(two[0])? << 4 | digit(two[1])?) as u8)).collect()
}

/// As many words as wanted.
pub fn exactly(words: &[&str], wanted: usize) -> Read<()> {
    match words.len() {
        n if n < wanted => Err(Why::MissingWord),
        n if n > wanted => Err(Why::ExtraWord),
        _ => Ok(()),
    }
}

/// `-` for an absent unit, else what `read` makes of the word.
pub fn optional<T>(word: &str, read: impl Fn(&str) -> Read<T>) -> Read<Option<T>> {
    if word == "-" {
        return Ok(None);
    }
    read(word).map(Some)
}

/// Volts: a decimal with at most 15 digits, or one of three names. Rust's own reader rounds once.
pub fn volts(word: &str) -> Read<f64> {
    if !["nan", "inf", "-inf"].contains(&word) {
        let digits = word.strip_prefix(['+', '-']).unwrap_or(word);
        let (whole, part) = digits.split_once('.').unwrap_or((digits, "0"));
        let plain = |s: &str| !s.is_empty() && s.bytes().all(|b| b.is_ascii_digit());
        if !plain(whole) || !plain(part) {
            return Err(Why::MalformedNumber);
        }
        if digits.bytes().filter(u8::is_ascii_digit).count() > 15 {
            return Err(Why::NumberTooLarge);
        }
    }
    f64::from_str(word).map_err(|_| Why::MalformedNumber)
}

/// Hands each `KEY=VALUE` to `set`, no key twice; answers which of `keys` were given.
pub fn pairs(words: &[&str], keys: &[&str], mut set: impl FnMut(&str, &str) -> Read<()>) -> Read<Vec<bool>> {
    let mut given = vec![false; keys.len()];
    for word in words {
        let (key, value) = word.split_once('=').ok_or(Why::UnknownKey)?;
        let place = keys.iter().position(|&k| k == key).ok_or(Why::UnknownKey)?;
        if std::mem::replace(&mut given[place], true) {
            return Err(Why::ExtraWord);
        }
        set(key, value)?;
    }
    Ok(given)
}
