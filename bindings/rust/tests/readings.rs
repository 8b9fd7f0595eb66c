//! T1 to T10 of the scope, and the reads of 2.5: registers written, advances, and what is read then.

use paddlemauve::{records, Advanced, Config, Event, Next, Record, Refusal, Timer, EVENT};

const TCCR0A: u16 = 0x44;
const TCCR0B: u16 = 0x45;
const TCNT0: u16 = 0x46;
const OCR0A: u16 = 0x47;
const OCR0B: u16 = 0x48;
const TCCR1B: u16 = 0x81;
const TCNT1: u16 = 0x84;
const ICR1: u16 = 0x86;
const OCR1A: u16 = 0x88;
const OCR1B: u16 = 0x8a;

const TOV: u8 = 1;
const OCFA: u8 = 2;
const OCFB: u8 = 4;
const ICF: u8 = 0x20;

/// Timer1 with id 0, as the readings have it.
const TIMER1: Config = Config { id: 0, ..Config::M328P_TIMER1 };

/// A fresh timer with registers written at cycle 0.
fn fresh(config: &Config, writes: &[(u16, u8)]) -> Timer {
    let mut timer = Timer::new(config).expect("the preset is accepted");
    for &(address, value) in writes {
        assert_eq!(timer.write(address, value, 0, &mut [0; EVENT]), Ok(0));
    }
    timer
}

/// What `next` answers of an event at a cycle that will raise some flags.
fn announced(cycle: u64, flags: u8) -> Result<Option<Next>, Refusal> {
    Ok(Some(Next { cycle, flags }))
}

/// Advances with room for one event; yields the flags raised and the triggers told.
fn event(timer: &mut Timer, cycle: u64) -> (u8, Vec<u8>) {
    let mut area = [0; EVENT];
    let Ok(Advanced::Done { written, .. }) = timer.advance(cycle, &mut area) else {
        panic!("an advance to {cycle} is not done");
    };
    let mut raised = 0;
    let mut triggers = Vec::new();
    for Record { cycle: at, event } in records(&area[..written]) {
        assert_eq!(at, cycle);
        match event {
            Event::Flags { raised: flags, .. } => raised = flags,
            Event::Trigger { trigger, .. } => triggers.push(trigger),
            Event::Pin { .. } | Event::Watchdog { .. } => panic!("no output is on, and no watchdog"),
        }
    }
    (raised, triggers)
}

#[test]
fn t1_normal() {
    let mut timer = fresh(&Config::M328P_TIMER0, &[(TCCR0B, 1)]);
    assert_eq!(timer.next(0), announced(1, OCFA | OCFB));
    let mut area = [0xa5; EVENT];
    assert_eq!(timer.advance(1, &mut area), Ok(Advanced::Done { written: 30, flags: TOV }));
    assert_eq!(area[..10], [0x40, 0, 0, 0, 0, 0, 0, 1, 6, 0]);
    assert_eq!(area[10..20], [0x80, 0, 0, 0, 0, 0, 0, 1, 0x10, 0]);
    assert_eq!(area[20..30], [0x80, 0, 0, 0, 0, 0, 0, 1, 0x20, 0]);
    assert_eq!(area[30..], [0xa5; EVENT - 30]);
    assert_eq!(timer.next(1), announced(256, TOV));
}

const T2: [(u16, u8); 4] = [(OCR0A, 124), (OCR0B, 200), (TCCR0A, 2), (TCCR0B, 3)];

#[test]
fn t2_ctc() {
    let mut timer = fresh(&Config::M328P_TIMER0, &T2);
    assert_eq!(timer.next(0), announced(8000, OCFA));
    assert_eq!(event(&mut timer, 8000), (OCFA, vec![1]));
    assert_eq!(timer.next(8000), announced(16000, OCFA));
}

#[test]
fn t3_count_written_at_top() {
    let mut timer = fresh(&Config::M328P_TIMER0, &T2);
    assert_eq!(timer.write(TCNT0, 124, 0, &mut []), Ok(0));
    assert_eq!(timer.next(0), announced(64, 0));
    assert_eq!(event(&mut timer, 64), (0, vec![]));
    assert_eq!(timer.read(TCNT0, 64), Ok(0));
    assert_eq!(timer.next(64), announced(8064, OCFA));
}

#[test]
fn t4_count_above_top() {
    let writes = [(OCR0A, 10), (OCR0B, 200), (TCCR0A, 2), (TCNT0, 11), (TCCR0B, 1)];
    let mut timer = fresh(&Config::M328P_TIMER0, &writes);
    assert_eq!(event(&mut timer, 190), (OCFB, vec![2]));
    assert_eq!(event(&mut timer, 245), (TOV, vec![3]));
    assert_eq!(event(&mut timer, 256), (OCFA, vec![1]));
}

const T5: [(u16, u8); 4] = [(OCR0A, 100), (OCR0B, 255), (TCCR0A, 1), (TCCR0B, 1)];

#[test]
fn t5_phase_correct() {
    let mut timer = fresh(&Config::M328P_TIMER0, &T5);
    assert_eq!(event(&mut timer, 101), (OCFA, vec![1]));
    assert_eq!(event(&mut timer, 256), (OCFB, vec![2]));
    assert_eq!(event(&mut timer, 411), (OCFA, vec![1]));
    assert_eq!(event(&mut timer, 511), (TOV, vec![3]));
}

#[test]
fn t6_top_zero() {
    let mut timer = fresh(&Config::M328P_TIMER0, &[(OCR0A, 0), (OCR0B, 200), (TCCR0A, 1), (TCCR0B, 9)]);
    assert_eq!(event(&mut timer, 1), (OCFA, vec![1]));
    assert_eq!(event(&mut timer, 2), (OCFA | TOV, vec![1, 3]));
}

#[test]
fn t7_direction_survives() {
    let mut timer = fresh(&Config::M328P_TIMER0, &T5);
    assert_eq!(timer.advance(300, &mut [0; EVENT]), Ok(Advanced::Done { written: 40, flags: OCFA }));
    assert_eq!((timer.state().count, timer.state().direction), (210, -1));
    assert_eq!(timer.write(TCCR0A, 0, 300, &mut []), Ok(0));
    assert_eq!(timer.read(TCNT0, 320), Ok(230));
    assert_eq!(timer.next(320), announced(346, TOV | OCFB));
}

#[test]
fn t8_wide() {
    let writes = [(OCR1A + 1, 0x3d), (OCR1A, 8), (OCR1B + 1, 0xff), (OCR1B, 0xff), (TCCR1B, 0x0d)];
    let mut timer = fresh(&TIMER1, &writes);
    assert_eq!(timer.next(0), announced(16_000_000, OCFA));
}

#[test]
fn t9_capture() {
    let writes = [(OCR1A + 1, 0xff), (OCR1A, 0xff), (OCR1B + 1, 0xff), (OCR1B, 0xff), (TCCR1B, 0x42)];
    let mut timer = fresh(&TIMER1, &writes);
    let mut area = [0; EVENT];
    assert_eq!(timer.edge(14, 1, 1003, &mut area), Ok(20));
    let captured = [Event::Flags { raised: ICF, lines: 0 }, Event::Trigger { trigger: 4, id: 0 }];
    assert!(records(&area[..20]).eq(captured.map(|event| Record { cycle: 1003, event })));
    assert_eq!([ICR1 + 1, ICR1].map(|byte| timer.peek(byte, 1003)), [0, 125].map(Ok));
    assert_eq!(timer.tifr(1003), Ok(ICF));
    assert_eq!(timer.edge(14, 0, 1100, &mut area), Ok(0));
    assert_eq!([ICR1 + 1, ICR1].map(|byte| timer.peek(byte, 1100)), [0, 125].map(Ok));
    assert_eq!(timer.tifr(1100), Ok(ICF));
}

#[test]
fn t10_sleep() {
    let mut timer = fresh(&Config::M328P_TIMER0, &[(OCR0A, 200), (OCR0B, 200), (TCCR0B, 3)]);
    assert_eq!(timer.sleep(2, 100), Ok(()));
    assert_eq!(timer.wake(1000), Ok(()));
    assert_eq!(timer.state().count, 1);
    assert_eq!(timer.next(1000), announced(13764, OCFA | OCFB));
}

/// 2.5 of 02: a compare is read past TEMP, so the count's high byte is still there.
#[test]
fn count_compare_count() {
    let writes = [(OCR1A + 1, 0x56), (OCR1A, 0x78), (TCNT1 + 1, 0x12), (TCNT1, 0x34)];
    let mut timer = fresh(&Config::M328P_TIMER1, &writes);
    assert_eq!([TCNT1, OCR1A + 1, OCR1A, TCNT1 + 1].map(|byte| timer.read(byte, 0)), [0x34, 0x56, 0x78, 0x12].map(Ok));
}
