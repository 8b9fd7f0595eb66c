//! A pin resolved by 01's words.

use super::bends::Bend;
use crate::script::{Answer, Ext, PinLine};

/// Level and volts; `None` holds the level.
type Resolved = (Option<u8>, Option<f64>);

pub fn resolve(pin: &PinLine, bend: Option<Bend>) -> Answer {
    let bent = |b: Bend| bend == Some(b);
    let carries_volts = pin.ext == Ext::Analog || bent(Bend::VoltsAlwaysTested);
    if !(pin.vcc.is_finite() && pin.vcc > 0.0) || carries_volts && !pin.volts.is_finite() {
        return Answer::Refused(9);
    }
    if [pin.dir, pin.out, pin.pullup, pin.pulldown, pin.ove]
        .iter()
        .chain(&[pin.ovv, pin.reserved, pin.ddoe, pin.ddov, pin.level])
        .any(|&bit| bit > 1)
    {
        return Answer::Refused(10);
    }
    let direction = if pin.ddoe == 1 { pin.ddov } else { pin.dir };
    let driven = if pin.ove == 1 { pin.ovv } else { pin.out };
    let output = direction == 1 && (pin.reserved == 0 || bent(Bend::ReservedDrives));
    let (level, volts) = match pin.ext {
        _ if output => (Some(driven), None),
        Ext::Low => (Some(0), None),
        Ext::High => (Some(1), None),
        Ext::Analog => analog(pin, &bent),
        Ext::Float => (pull(pin, &bent), None),
    };
    let level = level.unwrap_or(pin.level);
    let against = match pin.ext {
        Ext::Low => driven == 1,
        Ext::High => driven == 0,
        _ => false,
    };
    let rail = if level == 1 { pin.vcc } else { 0.0 };
    Answer::Pin { level, volts: volts.unwrap_or(rail), changed: level != pin.level, contention: output && against }
}

fn analog(pin: &PinLine, bent: &impl Fn(Bend) -> bool) -> Resolved {
    let mut volts = if pin.volts > pin.vcc { pin.vcc } else { pin.volts };
    if volts < 0.0 || bent(Bend::MinusZeroLost) && volts == 0.0 {
        volts = 0.0;
    }
    let high = 0.6 * pin.vcc;
    let level = if volts > high || volts == high && !bent(Bend::AnalogStrict) {
        Some(1)
    } else if volts <= 0.3 * pin.vcc {
        Some(0)
    } else {
        None
    };
    (level, Some(volts))
}

/// Pull-up, then pull-down, else held.
fn pull(pin: &PinLine, bent: &impl Fn(Bend) -> bool) -> Option<u8> {
    if pin.pulldown == 1 && bent(Bend::PullDownFirst) {
        return Some(0);
    }
    match (pin.pullup, pin.pulldown) {
        (1, _) => Some(1),
        (_, 1) => Some(0),
        _ => None,
    }
}
