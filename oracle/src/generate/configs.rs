//! Lines that make a timer: presets, timers of odd addresses, bits and pins, and ones that break a rule.

use super::rng::Rng;
use crate::script::{presets, ClockTable, CompareC, Config, Layout};

pub fn line(rng: &mut Rng) -> String {
    match rng.below(10) {
        0..=2 => preset(rng),
        3..=7 => odd(rng).to_string(),
        _ => broken(rng).to_string(),
    }
}

fn preset(rng: &mut Rng) -> String {
    let names: Vec<&str> = presets::names().collect();
    let mut line = format!("preset {}", rng.pick(&names));
    for (key, value) in [("id", rng.byte()), ("t", 200), ("group", 3)] {
        if rng.percent(15) {
            line += &format!(" {key}={value}");
        }
    }
    if rng.percent(10) {
        line += " pina=-";
    }
    line
}

/// Takes addresses, bits and pins that are still free.
struct Stock {
    addresses: Vec<bool>,
    bits: Vec<u8>,
    pins: Vec<u8>,
}

impl Stock {
    fn new(rng: &mut Rng) -> Self {
        let pins = (0..12).map(|_| rng.below(248) as u8).chain([246, 247, 0]).collect();
        Self { addresses: vec![false; 512], bits: (0..8).map(|b| 1 << b).collect(), pins }
    }

    /// The first of `size` free addresses in a row; often among the last ones.
    fn address(&mut self, rng: &mut Rng, size: u64) -> u16 {
        loop {
            let from = if rng.percent(10) { 500 } else { 0 };
            let at = (from + rng.below(513 - size - from)) as usize;
            let wanted = &mut self.addresses[at..at + size as usize];
            if !wanted.contains(&true) {
                wanted.fill(true);
                return at as u16;
            }
        }
    }

    fn bit(&mut self, rng: &mut Rng) -> u8 {
        let place = rng.below(self.bits.len() as u64) as usize;
        self.bits.swap_remove(place)
    }

    fn pin(&mut self, rng: &mut Rng) -> Option<u8> {
        let place = rng.below(self.pins.len() as u64) as usize;
        let pin = self.pins.swap_remove(place);
        self.pins.retain(|&p| p != pin);
        rng.percent(85).then_some(pin)
    }
}

/// A configuration that keeps every rule.
fn odd(rng: &mut Rng) -> Config {
    let stock = &mut Stock::new(rng);
    let wide = rng.percent(50);
    let narrow = rng.weighted(&[(5, Layout::Split), (3, Layout::Single), (1, Layout::Single0)]);
    let mut c = Config {
        id: rng.byte(),
        wide,
        layout: if wide { Layout::Split } else { narrow },
        tcnt: stock.address(rng, if wide { 2 } else { 1 }),
        tov: stock.bit(rng),
        t: stock.pin(rng),
        clock: if rng.percent(70) { ClockTable::Sync } else { ClockTable::Timer2 },
        group: rng.pick(&[0, 1, 2, 3, 0xff]),
        prr: rng.pick(&[0, 1, 0x20, 0x8000, 0xffff]),
        sleeprun: rng.pick(&[0, 0, 2, 0x88, 0xff, 0xfe]),
        ..Config::default()
    };
    controls(rng, stock, &mut c);
    units(rng, stock, &mut c);
    c
}

/// The compares and ICR, some of them absent.
fn units(rng: &mut Rng, stock: &mut Stock, c: &mut Config) {
    let size = if c.wide { 2 } else { 1 };
    if c.layout != Layout::Single0 {
        (c.ocra, c.ocfa, c.pina) = (Some(stock.address(rng, size)), stock.bit(rng), stock.pin(rng));
        if rng.percent(75) {
            (c.ocrb, c.ocfb, c.pinb) = (Some(stock.address(rng, size)), stock.bit(rng), stock.pin(rng));
        }
    }
    if c.wide && rng.percent(75) {
        (c.icr, c.icf, c.icp) = (Some(stock.address(rng, size)), stock.bit(rng), stock.pin(rng));
    }
    if c.wide && rng.percent(60) {
        let (ocr, flag, pin) = (stock.address(rng, size), stock.bit(rng), stock.pin(rng));
        c.c = Some(CompareC { ocr, flag, pin, force: rng.byte() });
    }
}

/// Control and force addresses, and the force masks.
fn controls(rng: &mut Rng, stock: &mut Stock, c: &mut Config) {
    c.tccra = stock.address(rng, 1);
    c.tccrb = if c.layout == Layout::Split { stock.address(rng, 1) } else { c.tccra };
    c.foc = match (c.layout, rng.below(3)) {
        (Layout::Split, 0) => c.tccrb,
        (Layout::Split, 1) => stock.address(rng, 1),
        _ => c.tccra,
    };
    (c.foca, c.focb) = rng.pick(&[(0x80, 0x40), (8, 4), (0, 0x40), (0xff, 0xff), (0x80, 0)]);
}

/// A configuration with one rule broken, if that rule touches it at all.
fn broken(rng: &mut Rng) -> Config {
    let mut c = odd(rng);
    match rng.below(5) {
        0 => break_units(rng, &mut c),
        1 => break_addresses(rng, &mut c),
        2 => break_flags(rng, &mut c),
        3 => break_pins(rng, &mut c),
        _ => break_layout(rng, &mut c),
    }
    c
}

fn break_units(rng: &mut Rng, c: &mut Config) {
    match rng.below(4) {
        0 => (c.wide, c.icr) = (false, c.icr.or(Some(0x1f0))),
        1 => (c.wide, c.c) = (false, c.c.or(Some(CompareC { ocr: 0x1f0, flag: 0x80, pin: None, force: 0 }))),
        2 => (c.ocra, c.ocfa, c.pina) = (None, 0, None),
        _ => (c.layout, c.tccrb, c.foc) = (Layout::Single0, c.tccra, c.tccra),
    }
}

fn break_addresses(rng: &mut Rng, c: &mut Config) {
    match rng.below(6) {
        0 => c.tcnt = c.tccra,
        1 => c.ocrb = c.ocra.map(|a| a + 1),
        2 => c.tcnt = 512,
        3 => c.ocra = Some(if c.wide { 511 } else { 0xffff }),
        4 => c.foc = c.tcnt,
        _ => c.icr = c.ocra,
    }
}

fn break_flags(rng: &mut Rng, c: &mut Config) {
    match rng.below(7) {
        0 => c.tov = 0,
        1 => c.tov |= c.tov.rotate_left(1),
        2 => c.ocfa = c.tov,
        3 => c.ocfb = c.ocfa,
        4 => c.icf = if c.icf == 0 { 0x80 } else { 0 },
        5 => c.ocfa = 0,
        _ => c.c = c.c.map(|u| CompareC { flag: rng.pick(&[0, 3]), ..u }),
    }
}

fn break_pins(rng: &mut Rng, c: &mut Config) {
    match rng.below(6) {
        0 => c.pina = Some(248),
        1 => c.t = Some(255),
        2 => c.pinb = c.pina,
        3 => c.icp = c.t,
        4 => (c.ocrb, c.ocfb, c.pinb) = (None, 0, Some(7)),
        _ => (c.icr, c.icf, c.icp) = (None, 0, Some(7)),
    }
}

fn break_layout(rng: &mut Rng, c: &mut Config) {
    match rng.below(4) {
        0 => c.tccrb = c.tccra,
        1 => (c.layout, c.foc) = (Layout::Single, c.tccrb),
        2 => (c.layout, c.tccrb) = (Layout::Single, c.tccra),
        _ => (c.layout, c.tccrb, c.foc, c.wide) = (Layout::Single, c.tccra, c.tccra, true),
    }
}
