//! A timer's configuration, checked by the library when a timer is made of it.

use crate::raw;

/// Where the control bits stand.
#[derive(Clone, Copy, Debug, PartialEq, Eq)]
pub enum Layout {
    /// TCCRnA and TCCRnB.
    Split,
    /// One TCCRn.
    Single,
    /// One TCCRn without WGM.
    Bare,
}

/// Which clock select table the timer has.
#[derive(Clone, Copy, Debug, PartialEq, Eq)]
pub enum Clocks {
    Sync,
    Timer2,
}

/// A compare unit, if it is `present`: OCRnx, OCFnx, FOCnx and OCnx.
#[derive(Clone, Copy, Debug, PartialEq, Eq)]
pub struct Compare {
    pub present: bool,
    pub address: u16,
    pub flag: u8,
    pub force: u8,
    pub pin: Option<u8>,
}

/// The capture unit, if it is `present`: ICRn, ICFn and ICPn.
#[derive(Clone, Copy, Debug, PartialEq, Eq)]
pub struct Capture {
    pub present: bool,
    pub address: u16,
    pub flag: u8,
    pub pin: Option<u8>,
}

impl Compare {
    pub const ABSENT: Self = Self { present: false, address: 0, flag: 0, force: 0, pin: None };

    /// A unit that is there.
    pub const fn at(address: u16, flag: u8, force: u8, pin: Option<u8>) -> Self {
        Self { present: true, address, flag, force, pin }
    }

    fn raw(self) -> raw::Compare {
        let Self { present, address, flag, force, pin } = self;
        raw::Compare { present, address, flag, force, wire: wire(pin) }
    }
}

impl Capture {
    pub const ABSENT: Self = Self { present: false, address: 0, flag: 0, pin: None };

    /// A unit that is there.
    pub const fn at(address: u16, flag: u8, pin: Option<u8>) -> Self {
        Self { present: true, address, flag, pin }
    }

    fn raw(self) -> raw::Capture {
        let Self { present, address, flag, pin } = self;
        raw::Capture { present, address, flag, wire: wire(pin) }
    }
}

/// What is fixed of a timer. `foc` is where the force bits stand, `prr` the timer's bit of the power
/// reduction register, `sleeprun` a bit for each sleep mode that it counts in.
#[derive(Clone, Copy, Debug, PartialEq, Eq)]
pub struct Config {
    pub id: u8,
    pub wide: bool,
    pub layout: Layout,
    pub tccra: u16,
    pub tccrb: u16,
    pub foc: u16,
    pub tcnt: u16,
    pub a: Compare,
    pub b: Compare,
    pub c: Compare,
    pub icr: Capture,
    pub tov: u8,
    pub t: Option<u8>,
    pub clocks: Clocks,
    pub group: u8,
    pub prr: u16,
    pub sleeprun: u8,
}

impl Config {
    /// Timer0 of the ATmega328P (28 pins).
    pub const M328P_TIMER0: Self = Self {
        id: 0,
        wide: false,
        layout: Layout::Split,
        tccra: 0x44,
        tccrb: 0x45,
        foc: 0x45,
        tcnt: 0x46,
        a: Compare::at(0x47, 2, 0x80, Some(12)),
        b: Compare::at(0x48, 4, 0x40, Some(11)),
        c: Compare::ABSENT,
        icr: Capture::ABSENT,
        tov: 1,
        t: Some(6),
        clocks: Clocks::Sync,
        group: 1,
        prr: 0x20,
        sleeprun: 0,
    };

    /// Timer1 of the ATmega328P (28 pins).
    pub const M328P_TIMER1: Self = Self {
        id: 1,
        wide: true,
        layout: Layout::Split,
        tccra: 0x80,
        tccrb: 0x81,
        foc: 0x82,
        tcnt: 0x84,
        a: Compare::at(0x88, 2, 0x80, Some(15)),
        b: Compare::at(0x8a, 4, 0x40, Some(16)),
        c: Compare::ABSENT,
        icr: Capture::at(0x86, 0x20, Some(14)),
        tov: 1,
        t: Some(11),
        clocks: Clocks::Sync,
        group: 1,
        prr: 8,
        sleeprun: 0,
    };

    /// Timer2 of the ATmega328P (28 pins); power-save and extended standby do not halt it.
    pub const M328P_TIMER2: Self = Self {
        id: 2,
        wide: false,
        layout: Layout::Split,
        tccra: 0xb0,
        tccrb: 0xb1,
        foc: 0xb1,
        tcnt: 0xb2,
        a: Compare::at(0xb3, 2, 0x80, Some(17)),
        b: Compare::at(0xb4, 4, 0x40, Some(5)),
        c: Compare::ABSENT,
        icr: Capture::ABSENT,
        tov: 1,
        t: None,
        clocks: Clocks::Timer2,
        group: 2,
        prr: 0x40,
        sleeprun: 0x88,
    };

    pub(crate) fn raw(&self) -> raw::Config {
        raw::Config {
            id: self.id,
            wide: self.wide,
            layout: self.layout as u8,
            tccra: self.tccra,
            tccrb: self.tccrb,
            foc: self.foc,
            tcnt: self.tcnt,
            a: self.a.raw(),
            b: self.b.raw(),
            c: self.c.raw(),
            icr: self.icr.raw(),
            tov: self.tov,
            t: wire(self.t),
            clocks: self.clocks as u8,
            group: self.group,
            prr: self.prr,
            sleeprun: self.sleeprun,
        }
    }
}

fn wire(pin: Option<u8>) -> raw::Wire {
    raw::Wire { present: pin.is_some(), pin: pin.unwrap_or(0) }
}
