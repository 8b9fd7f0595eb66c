//! Number 1: which configurations are turned away.

use std::collections::HashSet;

use super::bends::Bend;
use super::setup::{Register, Setup};
use crate::script::Layout;

/// Whether any rule of 01 is broken.
pub fn broken(setup: &Setup) -> bool {
    wide_units_on_narrow(setup)
        || wrong_layout(setup)
        || wrong_addresses(setup)
        || wrong_flags(setup)
        || wrong_pins(setup)
}

fn wide_units_on_narrow(setup: &Setup) -> bool {
    !setup.config.wide && (setup.config.icr.is_some() || setup.config.c.is_some())
}

fn wrong_layout(setup: &Setup) -> bool {
    let c = &setup.config;
    let one_address = c.tccra == c.tccrb && c.foc == c.tccra;
    match c.layout {
        Layout::Split => {
            c.tccra == c.tccrb
                || !setup.channels[0].present
                || setup.bent(Bend::ForceMustDiffer) && setup.registers.iter().all(|r| r.1 != Register::Force)
        }
        Layout::Single => c.wide || !one_address || !setup.channels[0].present,
        Layout::Single0 => c.wide || !one_address || setup.channels.iter().any(|ch| ch.present),
    }
}

fn wrong_addresses(setup: &Setup) -> bool {
    let lenient = setup.bent(Bend::HighBytesMayMeet);
    let counted = setup.registers.iter().filter(|r| !(lenient && matches!(r.1, Register::High(_))));
    let mut seen = HashSet::new();
    counted.into_iter().any(|r| !seen.insert(r.0)) || setup.registers.iter().any(|r| r.0 > 511)
}

fn wrong_flags(setup: &Setup) -> bool {
    let c = &setup.config;
    let mut units: Vec<(u8, bool)> = setup.channels.iter().map(|ch| (ch.flag, ch.present)).collect();
    units.extend([(c.tov, true), (c.icf, c.icr.is_some())]);
    let mut seen = 0;
    for (flag, present) in units {
        let wanted = if present { flag.is_power_of_two() } else { flag == 0 };
        if !wanted || seen & flag != 0 && !setup.bent(Bend::FlagsMayMeet) {
            return true;
        }
        seen |= flag;
    }
    false
}

fn wrong_pins(setup: &Setup) -> bool {
    let c = &setup.config;
    if setup.channels.iter().any(|ch| ch.pin.is_some() && !ch.present) || c.icp.is_some() && c.icr.is_none() {
        return true;
    }
    let most = if setup.bent(Bend::LastPinRefused) { 246 } else { 247 };
    let pins = setup.channels.iter().map(|ch| ch.pin).chain([c.icp, c.t]).flatten();
    let mut seen = HashSet::new();
    pins.into_iter().any(|pin| pin > most || !seen.insert(pin))
}
