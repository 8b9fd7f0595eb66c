//! What `crates/shell` and `crates/doorlog` export, in C's layout: the configuration of `crates/config`, the timer of `crates/counter`, the
//! watchdog of `crates/oscillator`, the held timer and the reply of `crates/held`, the board of `crates/board`, the log of `crates/record_ring`, and the structs that the two crates name themselves.

use std::mem::MaybeUninit;

#[repr(C)]
#[derive(Clone, Copy, Debug, PartialEq, Eq)]
pub struct Wire {
    pub present: bool,
    pub pin: u8,
}

#[repr(C)]
#[derive(Clone, Copy, Debug, PartialEq, Eq)]
pub struct Compare {
    pub present: bool,
    pub address: u16,
    pub flag: u8,
    pub force: u8,
    pub wire: Wire,
}

#[repr(C)]
#[derive(Clone, Copy, Debug, PartialEq, Eq)]
pub struct Capture {
    pub present: bool,
    pub address: u16,
    pub flag: u8,
    pub wire: Wire,
}

#[repr(C)]
#[derive(Clone, Copy, Debug, PartialEq, Eq)]
pub struct Config {
    pub id: u8,
    pub wide: bool,
    pub layout: u8,
    pub tccra: u16,
    pub tccrb: u16,
    pub foc: u16,
    pub tcnt: u16,
    pub a: Compare,
    pub b: Compare,
    pub c: Compare,
    pub icr: Capture,
    pub tov: u8,
    pub t: Wire,
    pub clocks: u8,
    pub group: u8,
    pub prr: u16,
    pub sleeprun: u8,
}

#[repr(C)]
#[derive(Clone, Copy, Debug, PartialEq, Eq)]
pub struct Counter {
    pub count: u32,
    pub direction: i32,
    pub blocked: bool,
    pub odometer: u64,
}

#[repr(C)]
#[derive(Clone, Copy, Debug, PartialEq, Eq)]
pub struct Drives {
    pub enables: [u8; 3],
    pub values: [u8; 3],
}

#[repr(C)]
#[derive(Clone, Copy, Debug, PartialEq, Eq)]
pub struct Registers {
    pub tccra: u8,
    pub tccrb: u8,
    pub icr: u32,
    pub temp: u8,
}

#[repr(C)]
#[derive(Clone, Copy, Debug, PartialEq, Eq)]
pub struct Flags {
    pub tifr: u8,
    pub timsk: u8,
}

#[repr(C)]
#[derive(Clone, Copy, Debug, PartialEq, Eq)]
pub struct Clock {
    pub sync: u64,
    pub origin: u64,
    pub latest: u64,
}

#[repr(C)]
#[derive(Clone, Copy, Debug, PartialEq, Eq)]
pub struct Halts {
    pub asleep: bool,
    pub since: u64,
    pub reduced: bool,
    pub tsm: bool,
    pub routed: bool,
}

#[repr(C)]
#[derive(Clone, Copy, Debug, PartialEq, Eq)]
pub struct Timer {
    pub config: Config,
    pub counter: Counter,
    pub ocr: [u32; 3],
    pub buffer: [u32; 3],
    pub oc: [u8; 3],
    pub drives: Drives,
    pub registers: Registers,
    pub flags: Flags,
    pub clock: Clock,
    pub halts: Halts,
}

/// The words that the library keeps of a timer, and it alone reads.
const KEPT: usize = 8;

/// A timer as its owner holds it, with what the library keeps of it.
#[repr(C)]
#[derive(Clone, Copy)]
pub struct Held {
    pub timer: Timer,
    pub kept: [MaybeUninit<u64>; KEPT],
}

#[repr(C)]
pub struct Begun {
    pub number: u8,
    pub timer: Held,
}

#[repr(C)]
#[derive(Clone, Copy)]
pub struct Asked {
    pub kind: u8,
    pub pin: u8,
    pub value: u8,
    pub address: u16,
    pub cycle: u64,
}

#[repr(C)]
#[derive(Clone, Copy)]
pub struct Reply {
    pub number: u8,
    pub what: u8,
    pub flags: u8,
    pub value: u64,
    pub written: u64,
    pub next: u64,
}

#[repr(C)]
#[derive(Clone, Copy)]
pub struct Distance {
    pub ticks: u32,
    pub flags: u8,
    pub looked: u8,
}

#[repr(C)]
#[derive(Clone, Copy)]
pub struct Shifted {
    pub number: u8,
    pub ticks: i32,
}

/// A `&mut [u8]` of Rattle.
#[repr(C)]
pub struct Area {
    pub start: *mut u8,
    pub length: usize,
}

impl Area {
    pub fn of(area: &mut [u8]) -> Self {
        Self { start: area.as_mut_ptr(), length: area.len() }
    }
}

/// A `&[u8]` of Rattle.
#[repr(C)]
pub struct List {
    pub start: *const u8,
    pub length: usize,
}

impl List {
    pub fn of(list: &[u8]) -> Self {
        Self { start: list.as_ptr(), length: list.len() }
    }
}

#[repr(C)]
pub struct Ended {
    pub timer: Held,
    pub done: u64,
    pub reply: Reply,
}

/// The bytes that a timer takes, and the multiple of which its address must be.
#[repr(C)]
#[derive(Clone, Copy, Debug, PartialEq, Eq)]
pub struct Shape {
    pub size: u64,
    pub align: u64,
}

#[repr(C)]
#[derive(Clone, Copy, Debug, PartialEq, Eq)]
pub struct Control {
    pub wdif: bool,
    pub wdie: bool,
    pub wde: bool,
    pub wdp: u8,
}

#[repr(C)]
#[derive(Clone, Copy, Debug, PartialEq, Eq)]
pub struct Window {
    pub wdce: bool,
    pub since: u64,
}

#[repr(C)]
#[derive(Clone, Copy, Debug, PartialEq, Eq)]
pub struct Moving {
    pub count: u32,
    pub control: Control,
    pub window: Window,
}

#[repr(C)]
#[derive(Clone, Copy, Debug, PartialEq, Eq)]
pub struct Watchdog {
    pub moving: Moving,
    pub sync: u64,
    pub latest: u64,
}

#[repr(C)]
#[derive(Clone, Copy)]
pub struct Watched {
    pub watchdog: Watchdog,
    pub report: Report,
}

#[repr(C)]
#[derive(Clone, Copy)]
pub struct Report {
    pub number: u8,
    pub what: u8,
    pub value: u64,
    pub written: u64,
}

#[repr(C)]
#[derive(Clone, Copy, Debug, PartialEq, Eq)]
pub struct EventKey {
    pub owner: u8,
    pub tag: u8,
}

#[repr(C)]
#[derive(Clone, Copy, Debug, PartialEq, Eq)]
pub struct Event {
    pub key: EventKey,
    pub cycle: u64,
}

#[repr(C)]
#[derive(Clone, Copy, Debug, PartialEq, Eq)]
pub struct Scheduler {
    pub places: [Event; 64],
    pub count: usize,
    pub next: u64,
}

#[repr(C)]
#[derive(Clone, Copy, Debug, PartialEq, Eq)]
pub struct Board {
    pub timers: [Timer; 3],
    pub scheduler: Scheduler,
    pub gtccr: u8,
}

#[repr(C)]
#[derive(Clone, Copy)]
pub struct Ordered {
    pub kind: u8,
    pub id: u8,
    pub pin: u8,
    pub value: u8,
    pub address: u16,
    pub cycle: u64,
}

#[repr(C)]
#[derive(Clone, Copy)]
pub struct Standing {
    pub flags: u8,
    pub written: u64,
    pub next: u64,
}

#[repr(C)]
#[derive(Clone, Copy)]
pub struct Replied {
    pub number: u8,
    pub what: u8,
    pub flags: u8,
    pub value: u64,
    pub timers: [Standing; 3],
}

#[repr(C)]
#[derive(Clone, Copy, Debug, PartialEq, Eq)]
pub struct Terms {
    pub two: bool,
    pub hold: u64,
    pub quiet: u64,
    pub cap: u64,
}

#[repr(C)]
#[derive(Clone, Copy, Debug, PartialEq, Eq)]
pub struct Kept {
    pub terms: Terms,
    pub holding: bool,
    pub first: u64,
    pub rearmed: u64,
    pub due: u64,
    pub latest: u64,
}

/// Of a door's call.
#[repr(C)]
#[derive(Clone, Copy)]
pub struct Told {
    pub number: u8,
    pub pending: bool,
    pub due: u64,
    pub door: Kept,
}

#[repr(C)]
#[derive(Clone, Copy, Debug, PartialEq, Eq)]
pub struct Ring {
    pub next: usize,
    pub held: usize,
}

/// Of a log's call.
#[repr(C)]
#[derive(Clone, Copy)]
pub struct Logged {
    pub number: u8,
    pub ring: Ring,
}

#[repr(C)]
#[derive(Clone, Copy)]
pub struct Entry {
    pub bytes: [u8; 10],
}

#[repr(C)]
#[derive(Clone, Copy)]
pub struct Dumped {
    pub number: u8,
    pub short: bool,
    pub written: u64,
}

extern "C" {
    pub fn paddlemauve_shape() -> Shape;
    pub fn paddlemauve_start(config: Config) -> Begun;
    pub fn paddlemauve_hold(timer: Timer) -> Held;
    pub fn paddlemauve_distance(timer: Timer) -> Distance;
    pub fn paddlemauve_shift(timer: Timer, first: u64, second: u64) -> Shifted;
    pub fn paddlemauve_call(timer: &mut Held, asked: Asked, area: Area) -> Reply;
    pub fn paddlemauve_advance(timer: &mut Held, cycle: u64, area: Area) -> Reply;
    pub fn paddlemauve_next(timer: &mut Held, cycle: u64) -> Reply;
    pub fn paddlemauve_count_low(timer: &mut Held, cycle: u64) -> Reply;
    pub fn paddlemauve_count_high(timer: &mut Held, cycle: u64) -> Reply;
    pub fn paddlemauve_tifr(timer: &mut Held, cycle: u64) -> Reply;
    pub fn paddlemauve_clear(timer: &mut Held, ones: u8, cycle: u64) -> Reply;
    pub fn paddlemauve_write(timer: &mut Held, cycle: u64, area: Area, address: u16, value: u8) -> Reply;
    pub fn paddlemauve_writes(timer: Timer, list: List, area: Area) -> Ended;
    pub fn paddlemauve_board() -> Board;
    pub fn paddlemauve_board_shape() -> Shape;
    pub fn paddlemauve_board_call(board: &mut Board, ordered: Ordered, zero: Area, one: Area, two: Area) -> Replied;
    pub fn paddlemauve_watchdog() -> Watchdog;
    pub fn paddlemauve_watchdog_advance(w: Watchdog, cycle: u64, area: Area) -> Watched;
    pub fn paddlemauve_watchdog_next(w: Watchdog, cycle: u64) -> Watched;
    pub fn paddlemauve_watchdog_wdr(w: Watchdog, cycle: u64) -> Watched;
    pub fn paddlemauve_watchdog_serve(w: Watchdog, cycle: u64) -> Watched;
    pub fn paddlemauve_watchdog_read(w: Watchdog, cycle: u64) -> Watched;
    pub fn paddlemauve_watchdog_write(w: Watchdog, value: u8, cycle: u64) -> Watched;
    pub fn paddlemauve_door_one(hold: u64) -> Told;
    pub fn paddlemauve_door_two(hold: u64, quiet: u64, cap: u64) -> Told;
    pub fn paddlemauve_door_edge(door: Kept, cycle: u64) -> Told;
    pub fn paddlemauve_log() -> Ring;
    pub fn paddlemauve_log_add(ring: Ring, area: Area, entry: Entry) -> Logged;
    pub fn paddlemauve_log_release(ring: Ring, area: List, count: usize) -> Logged;
    pub fn paddlemauve_log_count(ring: Ring) -> usize;
    pub fn paddlemauve_log_oldest(ring: Ring) -> usize;
    pub fn paddlemauve_dump(log: List, out: Area) -> Dumped;
}
