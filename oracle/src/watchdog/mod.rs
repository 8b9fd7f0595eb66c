//! The plain watchdog: written from the sheet's words and 02's alone, it works every oscillator tick singly. The Rust has
//! none to compare with, so judge and plain counter answer `wdt` lines by this one.

mod line;

pub use line::Wdt;

/// The oscillator ticks at the multiples of so many cycles.
const TICK: u64 = 125;

const LAST_CYCLE: u64 = (1 << 62) - 1;

/// The bits of WDTCSR.
const WDIF: u8 = 0x80;
const WDIE: u8 = 0x40;
const WDP3: u8 = 0x20;
const WDCE: u8 = 0x10;
const WDE: u8 = 0x08;

/// What a time-out does.
#[derive(Clone, Copy)]
enum Body {
    Interrupt = 1,
    Reset = 2,
}

#[derive(Clone, Default)]
pub struct Watchdog {
    count: u32,
    wdif: bool,
    wdie: bool,
    wde: bool,
    p: u8,
    /// The cycle of a write of WDCE and WDE together, until the next write.
    opened: Option<u64>,
    sync: u64,
    latest: u64,
}

impl Watchdog {
    /// Answers a line on the area that it was given.
    pub fn answer(&mut self, wdt: Wdt, area: &mut [u8]) -> String {
        if let Some(number) = self.refusal(wdt) {
            return format!("refused {number}");
        }
        let mut bytes = 0;
        let mut value = None;
        let mut paused = false;
        match wdt {
            Wdt::New => return "ok config".into(),
            Wdt::State => return self.state(),
            Wdt::Advance { cycle, .. } => {
                paused = self.advance(cycle, area, &mut bytes);
                self.latest = self.latest.max(self.sync);
            }
            Wdt::Next(cycle) => self.latest = cycle,
            Wdt::Wdr(cycle) => {
                self.pass(cycle);
                self.count = 0;
            }
            Wdt::Serve(cycle) => {
                self.pass(cycle);
                self.serve();
            }
            Wdt::Read(cycle) => {
                self.pass(cycle);
                value = Some(self.wdtcsr(cycle));
            }
            Wdt::Write(value, cycle) => {
                self.pass(cycle);
                self.write(value, cycle);
            }
        }
        let next = self.next().map_or("none".into(), |n| n.to_string());
        let records: String = area[..bytes].iter().map(|b| format!("{b:02x}")).collect();
        let records = if bytes == 0 { "-" } else { &records };
        let value = value.map_or("-".into(), |v| format!("{v:02x}"));
        let said = if paused { format!("paused cycle={}", self.sync) } else { format!("ok value={value}") };
        format!("{said} next={next} bytes={bytes} records={records}")
    }

    /// Cycles as for a timer, then the next event, then a period that there is not.
    fn refusal(&self, wdt: Wdt) -> Option<u8> {
        let cycle = wdt.cycle()?;
        if cycle > LAST_CYCLE {
            return Some(2);
        }
        if cycle < self.latest {
            return Some(3);
        }
        if matches!(wdt, Wdt::Advance { .. }) {
            return None;
        }
        if self.next().is_some_and(|next| next <= cycle) {
            return Some(6);
        }
        match wdt {
            Wdt::Write(value, _) if self.changes(value, cycle) && period_bits(value) >= 10 => Some(17),
            _ => None,
        }
    }

    fn runs(&self) -> bool {
        self.wde || self.wdie
    }

    fn period(&self) -> u32 {
        2048 << self.p
    }

    /// The first tick after the sync cycle that times out.
    fn next(&self) -> Option<u64> {
        if !self.runs() {
            return None;
        }
        let ticks = self.period().saturating_sub(self.count).max(1);
        Some((self.sync / TICK + ticks as u64) * TICK)
    }

    /// Works each tick up to a cycle, or stops before the first whose record does not fit.
    fn advance(&mut self, cycle: u64, area: &mut [u8], bytes: &mut usize) -> bool {
        while self.runs() {
            let tick = (self.sync / TICK + 1) * TICK;
            if tick > cycle {
                break;
            }
            if self.count + 1 >= self.period() {
                if area.len() - *bytes < 10 {
                    return true;
                }
                let body = self.time_out();
                let record = 3u128 << 78 | (tick as u128) << 16 | body as u128;
                area[*bytes..*bytes + 10].copy_from_slice(&record.to_be_bytes()[6..]);
                *bytes += 10;
            } else {
                self.count += 1;
            }
            self.sync = tick;
        }
        self.sync = cycle;
        false
    }

    /// Time passes up to a call's cycle, before which no time-out lies.
    fn pass(&mut self, cycle: u64) {
        let stopped = self.advance(cycle, &mut [], &mut 0);
        assert!(!stopped, "number 6 was tested");
        self.latest = cycle;
    }

    fn time_out(&mut self) -> Body {
        self.count = 0;
        let interrupts = self.wdie && !(self.wde && self.wdif);
        if interrupts {
            self.wdif = true;
            return Body::Interrupt;
        }
        (self.wdif, self.wdie, self.wde, self.p, self.opened) = (false, false, true, 0, None);
        Body::Reset
    }

    fn serve(&mut self) {
        if self.wdif && self.wdie {
            self.wdif = false;
            if self.wde {
                self.wdie = false;
            }
        }
    }

    fn wdce(&self, cycle: u64) -> bool {
        self.opened.is_some_and(|opened| cycle - opened <= 4)
    }

    /// A write that takes WDE and the prescaler.
    fn changes(&self, value: u8, cycle: u64) -> bool {
        self.wdce(cycle) && value & WDCE == 0
    }

    fn write(&mut self, value: u8, cycle: u64) {
        if self.changes(value, cycle) {
            self.wde = value & WDE != 0;
            self.p = period_bits(value);
        } else if value & WDE != 0 {
            self.wde = true;
        }
        self.opened = (value & (WDCE | WDE) == WDCE | WDE).then_some(cycle);
        if value & WDIF != 0 {
            self.wdif = false;
        }
        self.wdie = value & WDIE != 0;
        if !self.runs() {
            self.count = 0;
        }
    }

    fn wdtcsr(&self, cycle: u64) -> u8 {
        let bit = |on: bool, bit: u8| if on { bit } else { 0 };
        bit(self.wdif, WDIF)
            | bit(self.wdie, WDIE)
            | bit(self.p >= 8, WDP3)
            | bit(self.wdce(cycle), WDCE)
            | bit(self.wde, WDE)
            | self.p & 7
    }

    fn state(&self) -> String {
        let [wdif, wdie, wdce, wde] = [self.wdif, self.wdie, self.wdce(self.latest), self.wde].map(u8::from);
        let Self { count, p, sync, latest, .. } = self;
        format!("wdt count={count} wdif={wdif} wdie={wdie} wdce={wdce} wde={wde} p={p} sync={sync} latest={latest}")
    }

    /// What a random script aims at: the latest cycle, the next event, and whether it runs.
    pub fn aim(&self) -> (u64, Option<u64>) {
        (self.latest, self.next())
    }
}

fn period_bits(value: u8) -> u8 {
    (value & WDP3) / 4 + (value & 7)
}
