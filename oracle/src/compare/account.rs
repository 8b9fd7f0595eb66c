//! Every tick accounted for (2.11 of 02): in a normal mode, without TCNT write and reset, the start count and the ticks
//! made are the end count and the overflows, and the odometer grows by the ticks. The ticks come from the history alone:
//! cycles, clock writes, prescaler resets, halts and T edges.

use crate::judge::View;
use crate::script::{Call, ClockTable, Config, Layout};

/// The clock as a history moves it, and the ticks made up to a cycle.
struct Watch {
    sync: u64,
    made: u64,
    origin: u64,
    select: u8,
    asleep: Option<u64>,
    reduced: bool,
    tsm: bool,
}

/// Where a sum began, and the overflows since.
struct Sum {
    watch: Watch,
    count: u64,
    odometer: u64,
    overflows: u64,
}

/// The sums of one timer after the other; each must close after every call.
#[derive(Default)]
pub struct Account {
    sum: Option<Sum>,
    pub closed: usize,
    pub ticks: u64,
}

fn cycles_a_tick(table: ClockTable, select: u8) -> u64 {
    match table {
        ClockTable::Sync => [0, 1, 8, 64, 256, 1024, 0, 0][select as usize],
        ClockTable::Timer2 => [0, 1, 8, 32, 64, 128, 256, 1024][select as usize],
    }
}

impl Watch {
    fn held(&self) -> bool {
        self.asleep.is_some() || self.reduced || self.tsm
    }

    /// The ticks made up to a later cycle.
    fn made_at(&self, config: &Config, cycle: u64) -> u64 {
        let divisor = cycles_a_tick(config.clock, self.select);
        if divisor == 0 || self.held() {
            return self.made;
        }
        self.made + (cycle - self.origin) / divisor - (self.sync - self.origin) / divisor
    }

    /// An accepted call.
    fn hear(&mut self, config: &Config, call: Call, cycle: u64) {
        match call {
            Call::Write(address, value) if selects(config, address) => {
                self.tell(config, cycle);
                self.select = value & 7;
            }
            Call::Edge { pin, level } if config.t == Some(pin) && self.strikes(config, level) => {
                self.tell(config, cycle);
                self.made += 1;
            }
            Call::Sleep(mode) if mode != 0 && config.sleeprun & 1 << mode == 0 => {
                self.tell(config, cycle);
                self.asleep = Some(cycle);
            }
            Call::Wake => {
                if let Some(since) = self.asleep {
                    self.tell(config, cycle);
                    self.asleep = None;
                    self.origin += cycle - since;
                }
            }
            Call::Prr(mask) if (mask & config.prr != 0) != self.reduced => {
                self.tell(config, cycle);
                self.reduced = !self.reduced;
            }
            Call::Tsm(level) if (level == 1) != self.tsm => {
                self.tell(config, cycle);
                self.tsm = !self.tsm;
                self.origin = if self.tsm { self.origin } else { cycle };
            }
            Call::Presc(mask) if mask & config.group != 0 => {
                self.tell(config, cycle);
                self.origin = cycle;
            }
            _ => (),
        }
    }

    fn tell(&mut self, config: &Config, cycle: u64) {
        self.made = self.made_at(config, cycle);
        self.sync = cycle;
    }

    fn strikes(&self, config: &Config, level: u8) -> bool {
        config.clock == ClockTable::Sync && !self.held() && (self.select, level) == (6 + level, level)
    }
}

/// The register that has the clock select.
fn selects(config: &Config, address: u16) -> bool {
    address == if config.layout == Layout::Split { config.tccrb } else { config.tccra }
}

fn normal(view: &View) -> bool {
    let modes: &[usize] = if view.config.wide { &[0, 13] } else { &[0, 4, 6] };
    modes.contains(&view.inside.mode)
}

impl Account {
    /// A new timer.
    pub fn configured(&mut self) {
        self.sum = None;
    }

    /// An accepted call: its records in hexadecimal, and the timer as it leaves it.
    pub fn hear(&mut self, call: Call, cycle: u64, records: &str, view: &View, odometer: u64) {
        let sets = matches!(call, Call::Write(address, _) if address == view.config.tcnt) || call == Call::Reset;
        if sets || !normal(view) {
            self.sum = None;
        }
        let Some(sum) = &mut self.sum else {
            self.sum = normal(view).then(|| Sum::new(view, odometer));
            return;
        };
        sum.watch.hear(view.config, call, cycle);
        sum.overflows += overflows(records, view.config.tov);
        let ticks = sum.watch.made_at(view.config, view.inside.last_sync);
        let end = view.inside.tcnt as u64 + (view.inside.max as u64 + 1) * sum.overflows;
        assert_eq!(sum.count + ticks, end, "a sum does not close, after {call:?} at {cycle}");
        assert_eq!(sum.odometer.wrapping_add(ticks), odometer, "the odometer's growth, after {call:?} at {cycle}");
        self.closed += 1;
        self.ticks = self.ticks.max(ticks);
    }
}

impl Sum {
    fn new(view: &View, odometer: u64) -> Self {
        let t = &view.inside;
        let watch = Watch {
            sync: t.last_sync,
            made: 0,
            origin: t.ps_base,
            select: t.tccr_b & 7,
            asleep: t.sleep_halted.then_some(t.halt_start),
            reduced: t.power_reduced,
            tsm: t.tsm,
        };
        Self { watch, count: t.tcnt as u64, odometer, overflows: 0 }
    }
}

/// The flag records that raise a flag.
fn overflows(records: &str, flag: u8) -> u64 {
    let byte = |record: &[u8], at: usize| {
        let digits = std::str::from_utf8(&record[2 * at..2 * at + 2]).expect("hexadecimal digits");
        u8::from_str_radix(digits, 16).expect("hexadecimal digits")
    };
    let raises = |record: &&[u8]| byte(record, 0) >> 6 == 1 && byte(record, 8) & flag != 0;
    records.as_bytes().chunks_exact(20).filter(raises).count() as u64
}
