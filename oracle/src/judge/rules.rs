//! 01's rules of a configuration: number 1 of its table.

use crate::script::{Config, Layout};

const LAST_ADDRESS: u16 = 511;
const LAST_PIN: u8 = 247;

pub fn accepted(c: &Config) -> bool {
    units(c) && controls(c) && addresses(c) && flags(c) && pins(c)
}

/// ICR and channel C only when wide; OCRA everywhere but in a single layout without WGM, which has no compare.
fn units(c: &Config) -> bool {
    let wide_only = c.wide || c.icr.is_none() && c.c.is_none();
    let compares = match c.layout {
        Layout::Single0 => c.ocra.is_none() && c.ocrb.is_none(),
        _ => c.ocra.is_some(),
    };
    wide_only && compares
}

fn controls(c: &Config) -> bool {
    match c.layout {
        Layout::Split => c.tccra != c.tccrb,
        _ => !c.wide && c.tccra == c.tccrb && c.tccra == c.foc,
    }
}

/// Owned addresses are distinct and at most 511, high bytes too.
fn addresses(c: &Config) -> bool {
    let counted = [Some(c.tcnt), c.ocra, c.ocrb, c.icr, c.c.map(|u| u.ocr)];
    let mut owned = vec![c.tccra];
    for control in [c.tccrb, c.foc] {
        // Force may equal a control; that the controls differ where they must is tested apart.
        if !owned.contains(&control) {
            owned.push(control);
        }
    }
    for low in counted.into_iter().flatten() {
        owned.push(low);
        if c.wide {
            owned.push(low.saturating_add(1));
        }
    }
    owned.iter().all(|&a| a <= LAST_ADDRESS) && distinct(&owned)
}

/// One bit for each unit that is there, none for one that is not, all of them distinct.
fn flags(c: &Config) -> bool {
    let flags = [
        (c.tov, true),
        (c.ocfa, c.ocra.is_some()),
        (c.ocfb, c.ocrb.is_some()),
        (c.icf, c.icr.is_some()),
        (c.c.map_or(0, |u| u.flag), c.c.is_some()),
    ];
    let sizes = flags.iter().all(|&(flag, unit)| flag.count_ones() == unit as u32);
    let all = flags.iter().fold(0, |all, &(flag, _)| all | flag);
    sizes && all.count_ones() as usize == flags.iter().filter(|f| f.1).count()
}

/// A compare pin only with its compare, a capture pin only with ICR.
fn pins(c: &Config) -> bool {
    let owners = (c.pina.is_none() || c.ocra.is_some())
        && (c.pinb.is_none() || c.ocrb.is_some())
        && (c.icp.is_none() || c.icr.is_some());
    let pins: Vec<u8> = [c.pina, c.pinb, c.c.and_then(|u| u.pin), c.icp, c.t].into_iter().flatten().collect();
    owners && pins.iter().all(|&p| p <= LAST_PIN) && distinct(&pins)
}

fn distinct<T: PartialEq>(values: &[T]) -> bool {
    values.iter().enumerate().all(|(i, v)| !values[..i].contains(v))
}
