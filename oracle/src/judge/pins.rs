//! The `pin` line, resolved by the Rust's `Pin` behind refusals 9 and 10.

use mcs::pins::{ExtDrive, Pin};

use crate::script::{Answer, Ext, PinLine};

pub fn resolve(line: &PinLine) -> Answer {
    if !line.vcc.is_finite() || line.vcc <= 0.0 || line.ext == Ext::Analog && !line.volts.is_finite() {
        return Answer::Refused(9);
    }
    let bits = [
        line.dir,
        line.out,
        line.pullup,
        line.pulldown,
        line.ove,
        line.ovv,
        line.reserved,
        line.ddoe,
        line.ddov,
        line.level,
    ];
    if bits.iter().any(|&b| b > 1) {
        return Answer::Refused(10);
    }
    let mut pin = rust_pin(line);
    let contention = pin.contention();
    let changed = pin.resolve(line.vcc);
    assert_eq!(contention, pin.contention(), "resolving changed the contention");
    Answer::Pin { level: pin.level, volts: pin.volts, changed, contention }
}

fn rust_pin(line: &PinLine) -> Pin {
    Pin {
        dir: line.dir,
        out: line.out,
        pullup: line.pullup,
        pulldown: line.pulldown,
        ov_enable: line.ove,
        ov_value: line.ovv,
        reserved: line.reserved == 1,
        ddoe: line.ddoe,
        ddov: line.ddov,
        ext: match line.ext {
            Ext::Float => ExtDrive::Float,
            Ext::Low => ExtDrive::Low,
            Ext::High => ExtDrive::High,
            Ext::Analog => ExtDrive::Analog,
        },
        ext_volts: line.volts,
        level: line.level,
        ..Pin::default()
    }
}
