
// Appended by the oracle: what it must see of the private state, and the steps it must take alone.

/// The tag of the timer's one event.
pub const EVENT: u8 = EV_TICK;

impl Clone for Timer {
    fn clone(&self) -> Self {
        Self { c: self.c.clone(), ..*self }
    }
}

/// The timer's state under the Rust's own names.
#[derive(Clone, Copy, Debug, PartialEq, Eq)]
pub struct Inside {
    pub tcnt: u32,
    pub dir: i32,
    pub ocr: [u32; 3],
    pub ocr_buf: [u32; 3],
    pub icr: u32,
    pub temp: u8,
    pub tccr_a: u8,
    pub tccr_b: u8,
    pub tsm: bool,
    pub oc: [u8; 3],
    pub block_match: bool,
    pub last_sync: u64,
    pub ps_base: u64,
    pub sleep_halted: bool,
    pub power_reduced: bool,
    pub halt_start: u64,
    pub ac_capture: bool,
    pub mode: usize,
    pub top: u32,
    pub max: u32,
    /// Cycles a tick, 0 while the timer does not run.
    pub divisor: u64,
}

impl Timer {
    pub fn inside(&self) -> Inside {
        Inside {
            tcnt: self.tcnt,
            dir: self.dir,
            ocr: self.ocr,
            ocr_buf: self.ocr_buf,
            icr: self.icr,
            temp: self.temp,
            tccr_a: self.tccr_a,
            tccr_b: self.tccr_b,
            tsm: self.tsm,
            oc: self.oc,
            block_match: self.block_match,
            last_sync: self.last_sync,
            ps_base: self.ps_base,
            sleep_halted: self.sleep_halted,
            power_reduced: self.power_reduced,
            halt_start: self.halt_start,
            ac_capture: self.ac_capture,
            mode: self.wgm(),
            top: self.top(),
            max: self.max,
            divisor: if self.running() { self.div() } else { 0 },
        }
    }

    /// In N, C and F with direction minus one the skip goes down though the ticks go up.
    pub fn skips_down(&self) -> bool {
        self.dir < 0 && self.kind() < Kind::Pc
    }

    pub fn turn(&mut self, dir: i32) {
        self.dir = dir;
    }

    /// Runs `schedule` alone.
    pub fn reschedule(&mut self, cx: &mut Cx) {
        self.schedule(cx);
    }

    pub fn fill_temp(&mut self, temp: u8) {
        self.temp = temp;
    }

    /// The buffer behind a byte of a compare register.
    pub fn compare(&self, addr: u16) -> Option<u32> {
        let bytes = if self.c.wide { 2 } else { 1 };
        let lows = [self.c.ocr_a, self.c.ocr_b, self.c.c_unit.map(|u| u.ocr)];
        let channel = lows.iter().position(|low| low.is_some_and(|low| (low..low + bytes).contains(&addr)))?;
        Some(self.ocr_buf[channel])
    }

    /// Runs `distance` alone.
    pub fn ticks_ahead(&self) -> u64 {
        self.distance()
    }

    /// Whether `addr` is the high byte of a 16-bit register.
    pub fn high_byte(&self, addr: u16) -> bool {
        matches!(self.reg16(addr), Some((_, true)))
    }
}
