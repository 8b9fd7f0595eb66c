//! A configuration of the script as the Rust's.

use mcs::machine::{TIFR, TIMSK};
use mcs::timer::{CompareC, TimerBits, TimerConfig, TimerLayout, CS_SYNC, CS_TIMER2};

use crate::script::{self, ClockTable, Config, Layout};

/// The units' vectors are 1 to 5 in the order of 01's request lines.
pub fn timer_config(c: &Config) -> TimerConfig {
    TimerConfig {
        name: "timer",
        id: c.id,
        wide: c.wide,
        layout: layout(c.layout),
        tccr_a: c.tccra,
        tccr_b: c.tccrb,
        foc_reg: c.foc,
        foc_bits: (c.foca, c.focb),
        tcnt: c.tcnt,
        ocr_a: c.ocra,
        ocr_b: c.ocrb,
        icr: c.icr,
        tifr: TIFR,
        timsk: TIMSK,
        bits: TimerBits { tov: c.tov, ocfa: c.ocfa, ocfb: c.ocfb, icf: c.icf },
        v_ovf: 1,
        v_comp_a: Some(2),
        v_comp_b: Some(3),
        v_capt: Some(4),
        oc_a_gpio: c.pina.map(usize::from),
        oc_b_gpio: c.pinb.map(usize::from),
        c_unit: c.c.map(compare_c),
        icp_gpio: c.icp,
        t_gpio: c.t,
        clock: if c.clock == ClockTable::Sync { CS_SYNC } else { CS_TIMER2 },
        prescaler_group: c.group,
        prr_mask: c.prr,
        sleep_run: c.sleeprun,
    }
}

fn layout(layout: Layout) -> TimerLayout {
    match layout {
        Layout::Split => TimerLayout::Split,
        Layout::Single => TimerLayout::Single { wgm: true },
        Layout::Single0 => TimerLayout::Single { wgm: false },
    }
}

fn compare_c(c: script::CompareC) -> CompareC {
    CompareC { ocr: c.ocr, flag: c.flag, vector: 5, gpio: c.pin.map(usize::from), foc: c.force }
}
