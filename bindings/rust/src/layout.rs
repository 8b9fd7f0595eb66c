//! That the library linked lays its types out as `raw` does: what it says of a timer's and a board's size and alignment, and a known
//! reading, worked once by the library and read here field by field.

use std::mem::{align_of, size_of};
use std::sync::Once;

use crate::answer::{Answer, Call, Next, Outcome, Refusal};
use crate::board::{Board, Id};
use crate::config::Config;
use crate::door::Door;
use crate::raw::{self, Shape};
use crate::ring::Ring;
use crate::timer::{State, Timer};
use crate::watchdog::{Watchdog, WatchdogState};

/// Calls on Timer1 of the ATmega328P that leave another number in each field: compares, count, mode, outputs, a
/// capture by the comparator, sleep and power reduction.
const CALLS: [(Call, u64); 17] = [
    (Call::Write(0x89, 0x12), 0),
    (Call::Write(0x88, 0x34), 0),
    (Call::Write(0x8b, 0x56), 0),
    (Call::Write(0x8a, 0x78), 0),
    (Call::WriteTimsk(0x27), 0),
    (Call::Write(0x80, 0xb1), 0),
    (Call::Write(0x89, 0x00), 0),
    (Call::Write(0x88, 0x22), 0),
    (Call::Write(0x85, 0x00), 0),
    (Call::Write(0x84, 0x10), 0),
    (Call::Write(0x81, 0x41), 0),
    (Call::Route(1), 0),
    (Call::Prescale(1), 5),
    (Call::Output(1), 7),
    (Call::Sleep(2), 9),
    (Call::Reduce(8), 11),
    (Call::Write(0x8b, 0x5a), 13),
];

/// What the Rust reads then.
const READING: State = State {
    count: 25,
    direction: 1,
    blocked: false,
    ocr: [0x1234, 0x5678, 0],
    buffer: [0x22, 0x5678, 0],
    oc: [0, 0, 0],
    drives: [(1, 0), (1, 0), (0, 0)],
    tccra: 0xb1,
    tccrb: 0x41,
    icr: 23,
    temp: 0x5a,
    tifr: 0x20,
    timsk: 0x27,
    sync: 11,
    origin: 5,
    latest: 13,
    asleep: true,
    reduced: true,
    tsm: false,
    routed: true,
    odometer: 9,
};

/// The capture's two records.
const RECORDS: [u8; 20] = [0x40, 0, 0, 0, 0, 0, 0, 7, 0x20, 0x10, 0x80, 0, 0, 0, 0, 0, 0, 7, 0x40, 0x10];

/// Compares the library with this crate, once.
///
/// # Panics
/// Where they differ.
pub fn check() {
    static CHECKED: Once = Once::new();
    CHECKED.call_once(|| {
        shapes();
        reading();
    });
}

fn shapes() {
    // SAFETY: the function takes nothing and answers two numbers.
    let said = unsafe { raw::paddlemauve_shape() };
    let ours = Shape { size: size_of::<raw::Held>() as u64, align: align_of::<raw::Held>() as u64 };
    assert_eq!(said, ours, "the library's timer is not of our shape: build bindings and library from one commit");
}

fn reading() {
    let mut timer = Timer::start(&Config::M328P_TIMER1).expect("the preset is accepted");
    let mut area = [0xa5; 24];
    for (call, cycle) in CALLS {
        let Outcome { answer, .. } = timer.call(call, cycle, &mut area);
        assert_eq!(answer, Answer::Done, "the library does not take {call:?}");
    }
    assert_eq!(timer.state(), READING, "the library's timer does not read as ours");
    assert_eq!(area[..20], RECORDS, "the library's records are not those of the reading");
    assert_eq!(area[20..], [0xa5; 4], "the library wrote past its records");
}

/// Compares the library's board with this crate's, once: its shape, and a reading of Timer2, the scheduler and GTCCR.
///
/// # Panics
/// Where they differ.
pub fn check_board() {
    static CHECKED: Once = Once::new();
    CHECKED.call_once(|| {
        check();
        // SAFETY: the function takes nothing and answers two numbers.
        let said = unsafe { raw::paddlemauve_board_shape() };
        let ours = Shape { size: size_of::<raw::Board>() as u64, align: align_of::<raw::Board>() as u64 };
        assert_eq!(said, ours, "the library's board is not of our shape: build bindings and library from one commit");
        boarded().expect("the library takes the orders");
    });
}

/// Timer2 counts, then TSM holds all three.
fn boarded() -> Result<(), Refusal> {
    let mut board = Board::start();
    let mut area = [0xa5; 24];
    board.write(0xb4, 0xff, 3, Default::default())?;
    board.write(0xb1, 0x04, 5, Default::default())?;
    let next = Some(Next { cycle: 64, flags: 0x02 });
    assert_eq!(board.nexts(), [None, None, next], "the library's next events do not read as ours");
    assert_eq!(board.earliest(), Some(64), "the library's scheduler does not read as ours");
    board.advance(Id::Timer2, 64, &mut area)?;
    assert_eq!(area[..10], [0x40, 0, 0, 0, 0, 0, 0, 64, 2, 0], "the library's record is not that of the reading");
    assert_eq!(area[20..], [0xa5; 4], "the library wrote past its records");
    board.write(0x43, 0x82, 70, Default::default())?;
    assert_eq!((board.gtccr(), board.earliest()), (0x82, None), "the library's board does not read as ours");
    let State { latest, tsm, count, .. } = board.timer(Id::Timer2).state();
    assert_eq!((latest, tsm, count), (70, true, 1), "the library's Timer2 does not read as ours");
    Ok(())
}

/// A watchdog whose calls leave another number in each field.
const WATCHED: WatchdogState = WatchdogState {
    count: 4,
    wdif: true,
    wdie: true,
    wde: true,
    p: 1,
    opened: Some(768_400),
    sync: 768_401,
    latest: 768_402,
};

/// Compares the library's watchdog with this crate's, once.
///
/// # Panics
/// Where they differ.
pub fn check_watchdog() {
    static CHECKED: Once = Once::new();
    CHECKED.call_once(|| {
        watched().expect("the library takes the calls");
    });
}

/// p 1, an interrupt at its first time-out, and the timed sequence begun again.
fn watched() -> Result<(), Refusal> {
    let mut watchdog = Watchdog::start();
    let mut area = [0xa5; 24];
    watchdog.write(0x18, 255_999)?;
    watchdog.write(0x49, 256_000)?;
    watchdog.advance(768_399, &mut area)?;
    watchdog.write(0x58, 768_400)?;
    watchdog.read(768_401)?;
    watchdog.next(768_402)?;
    assert_eq!(watchdog.state(), WATCHED, "the library's watchdog does not read as ours");
    assert_eq!(
        area[..10],
        [0xc0, 0, 0, 0, 0, 0x0b, 0xb7, 0x83, 0, 1],
        "the library's record is not that of the reading"
    );
    assert_eq!(area[10..], [0xa5; 14], "the library wrote past its record");
    Ok(())
}

/// A door whose edges leave another number in each field.
const DOOR: raw::Kept = raw::Kept {
    terms: raw::Terms { two: true, hold: 100, quiet: 30, cap: 250 },
    holding: true,
    first: 7,
    rearmed: 40,
    due: 140,
    latest: 60,
};

/// Compares the library's door with this crate's, once.
///
/// # Panics
/// Where they differ.
pub fn check_door() {
    static CHECKED: Once = Once::new();
    CHECKED.call_once(|| {
        let mut door = Door::start_two(100, 30, 250).expect("the library takes the rule");
        for cycle in [7, 40, 60] {
            door.edge(cycle).expect("the library takes the edge");
        }
        assert_eq!(*door.raw(), DOOR, "the library's door does not read as ours");
    });
}

/// Compares the library's log with this crate's, once.
///
/// # Panics
/// Where they differ.
pub fn check_ring() {
    static CHECKED: Once = Once::new();
    CHECKED.call_once(|| {
        let mut area = vec![0xa5; Ring::BYTES];
        let mut ring = Ring::start();
        for record in [[1, 2, 3, 4, 5, 6, 7, 8, 9, 10], [11, 12, 13, 14, 15, 16, 17, 18, 19, 20]] {
            ring.add(&mut area, &record).expect("the library takes the record");
        }
        ring.release(&area, 1).expect("the library releases a record");
        assert_eq!(*ring.raw(), raw::Ring { next: 2, held: 1 }, "the library's log does not read as ours");
        assert!((1..=20).eq(area[..20].iter().copied()), "the library's area is not that of the reading");
        assert_eq!(area[20], 0xa5, "the library wrote past its records");
    });
}
