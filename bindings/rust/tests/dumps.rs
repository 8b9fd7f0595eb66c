//! Dumps against 02's words: the lines of a log written plainly, and its refusals.

mod random;

use std::collections::BTreeSet;

use paddlemauve::{dump, dump_into, dump_room, Event, Record, Refusal, RECORD};
use random::Rng;

/// The dump of records that are accepted.
fn lines(records: &[Record]) -> String {
    let change = |r: &Record| match r.event {
        Event::Pin { pin, enable, value } => Some((
            r.cycle,
            pin,
            if !enable {
                'z'
            } else if value {
                '1'
            } else {
                '0'
            },
        )),
        _ => None,
    };
    let changes: Vec<_> = records.iter().filter_map(change).collect();
    let pins: BTreeSet<u8> = changes.iter().map(|c| c.1).collect();
    let mut text = "$timescale 1 ps $end\n".to_string();
    pins.iter().for_each(|pin| text += &format!("$var wire 1 p{pin} p{pin} $end\n"));
    text += "$enddefinitions $end\n";
    let mut last = None;
    for (cycle, pin, level) in changes {
        if last.replace(cycle) != Some(cycle) {
            text += &format!("#{}\n", 62_500 * cycle);
        }
        text += &format!("{level}p{pin}\n");
    }
    text
}

fn event(rng: &mut Rng) -> Event {
    let few = rng.pick(&[3, 256]);
    match rng.below(8) {
        0 => Event::Flags { raised: rng.below(256) as u8, lines: rng.below(32) as u8 },
        1 => Event::Trigger { trigger: rng.below(16) as u8, id: rng.below(256) as u8 },
        2 => Event::Watchdog { reset: rng.below(2) == 1 },
        _ => Event::Pin { pin: rng.below(few) as u8, enable: rng.below(3) != 0, value: rng.below(2) == 1 },
    }
}

fn bytes(records: &[Record]) -> Vec<u8> {
    records.iter().flat_map(Record::bytes).collect()
}

#[test]
fn dumps_are_their_lines() {
    let mut rng = Rng(1);
    for _ in 0..3_000 {
        let step = rng.pick(&[1, 2, 1000, 1 << 36]);
        let mut cycle = 0;
        let mut records = Vec::new();
        for _ in 0..rng.below(60) {
            cycle += rng.below(step);
            records.push(Record { cycle, event: event(&mut rng) });
        }
        let log = bytes(&records);
        let read = log.chunks(RECORD).map(|r| Record::read(r.try_into().expect("ten bytes")));
        assert!(read.eq(records.iter().copied().map(Ok)));
        assert_eq!(dump(&log).map(|d| String::from_utf8(d).expect("text")), Ok(lines(&records)));
        let mut short = vec![0xa5; dump_room(log.len()) - 1];
        assert_eq!(dump_into(&log, &mut short), Ok(None));
        assert!(short.iter().all(|&b| b == 0xa5));
    }
}

#[test]
fn a_log_that_is_none_is_refused() {
    let pin = |cycle| Record { cycle, event: Event::Pin { pin: 5, enable: true, value: true } };
    let mut out = vec![0xa5; 8000];
    let mut refuses = |log: &[u8], why| {
        assert_eq!(dump_into(log, &mut out), Err(why));
        assert!(out.iter().all(|&b| b == 0xa5));
    };
    refuses(&bytes(&[pin(2)])[..9], Refusal::Record);
    refuses(&[0, 0, 0, 0, 0, 0, 0, 2, 5, 0xc1], Refusal::Record);
    refuses(&[0xc0, 0, 0, 0, 0, 0, 0, 2, 0, 3], Refusal::Record);
    refuses(&bytes(&[pin(3), pin(2)]), Refusal::RecordOrder);
    refuses(&bytes(&[pin(1 << 48)]), Refusal::RecordTooLate);
}

/// Of every kind and body: what is no record to the dump is none to [`Record::read`].
#[test]
fn a_record_is_read_where_a_dump_takes_it() {
    let mut formed = [0; 4];
    for (kind, body) in (0..4u8).flat_map(|kind| (0..=u16::MAX).map(move |body| (kind, body))) {
        let [high, low] = body.to_be_bytes();
        let bytes = [kind << 6, 0, 0, 0, 0, 0, 0, 2, high, low];
        let read = Record::read(&bytes);
        assert_eq!(read.map(|r| r.bytes()), dump(&bytes).map(|_| bytes), "kind {kind}, body {body:04x}");
        formed[kind as usize] += read.is_ok() as usize;
    }
    assert_eq!(formed, [1 << 10, 1 << 13, 1 << 12, 2]);
}
