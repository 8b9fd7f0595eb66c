//! What the Rust told the machine, as 01's records of 80 bits.

use mcs::machine::{Event, Trigger};

/// A tick of a wide timer has at most this many records.
const MOST: usize = 11;

/// The records of one step: pins, one flag record if a flag was raised, triggers.
pub fn bytes(events: &[Event], raised: u8, lines: [bool; 5], cycle: u64) -> Vec<u8> {
    let pins = events.iter().take_while(|e| matches!(e, Event::Pin { .. })).count();
    let (pins, triggers) = events.split_at(pins);
    let mut records: Vec<[u8; 10]> = pins.iter().map(pin_record).collect();
    if raised != 0 {
        let lines = lines.iter().fold(0, |bits, &on| bits << 1 | on as u16);
        records.push(record(1, cycle, (raised as u16) << 8 | lines << 3));
    }
    records.extend(triggers.iter().map(trigger_record));
    assert!(records.len() <= MOST, "more than {MOST} records in a step");
    records.concat()
}

fn pin_record(event: &Event) -> [u8; 10] {
    let Event::Pin { pin, enable, value, cycle } = *event else {
        panic!("{event:?} among the pins");
    };
    record(0, cycle, (pin as u16) << 8 | (enable as u16) << 7 | (value as u16) << 6)
}

fn trigger_record(event: &Event) -> [u8; 10] {
    let Event::Trigger { trigger, value: 1, cycle } = *event else {
        panic!("{event:?} among the triggers");
    };
    let (number, id) = match trigger {
        Trigger::TimerCompA(id) => (1, id),
        Trigger::TimerCompB(id) => (2, id),
        Trigger::TimerOvf(id) => (3, id),
        Trigger::TimerCapt(id) => (4, id),
        _ => panic!("{trigger:?} is not told by a timer"),
    };
    record(2, cycle, number << 12 | (id as u16) << 4)
}

fn record(kind: u64, cycle: u64, body: u16) -> [u8; 10] {
    let mut bytes = [0; 10];
    bytes[..8].copy_from_slice(&(kind << 62 | cycle).to_be_bytes());
    bytes[8..].copy_from_slice(&body.to_be_bytes());
    bytes
}
