//! A watchdog through the library: its modes, the timed sequence, its refusals.

use paddlemauve::{records, Event, Record, Refusal, Watchdog, WatchdogAdvanced};

/// The time-outs up to a cycle.
fn advanced(watchdog: &mut Watchdog, cycle: u64) -> Result<Vec<Record>, Refusal> {
    let mut area = [0xa5; 110];
    let WatchdogAdvanced::Done { written } = watchdog.advance(cycle, &mut area)? else {
        panic!("110 bytes hold eleven time-outs")
    };
    assert!(area[written..].iter().all(|&b| b == 0xa5));
    Ok(records(&area[..written]).collect())
}

#[test]
fn an_interrupt_then_a_reset() -> Result<(), Refusal> {
    let mut watchdog = Watchdog::new();
    assert_eq!(watchdog.next(0)?, None);
    watchdog.write(0x48, 0)?;
    assert_eq!(watchdog.next(0)?, Some(256_000));
    let [first, second] = advanced(&mut watchdog, 600_000)?[..] else { panic!("two time-outs") };
    assert_eq!(first, Record { cycle: 256_000, event: Event::Watchdog { reset: false } });
    assert_eq!(second, Record { cycle: 512_000, event: Event::Watchdog { reset: true } });
    assert_eq!(watchdog.read(600_000)?, 0x08);
    Ok(())
}

#[test]
fn a_served_interrupt_keeps_the_watchdog() -> Result<(), Refusal> {
    let mut watchdog = Watchdog::new();
    watchdog.write(0x40, 0)?;
    for turn in 1..=3 {
        assert_eq!(
            advanced(&mut watchdog, turn * 256_000)?,
            [Record { cycle: turn * 256_000, event: Event::Watchdog { reset: false } }]
        );
        watchdog.serve(turn * 256_000)?;
        assert_eq!(watchdog.read(turn * 256_000)?, 0x40);
    }
    watchdog.wdr(1_023_999)?;
    assert_eq!(watchdog.next(1_023_999)?, Some(1_279_875));
    Ok(())
}

#[test]
fn the_timed_sequence() -> Result<(), Refusal> {
    let mut watchdog = Watchdog::new();
    watchdog.write(0x08, 0)?;
    watchdog.write(0x00, 1)?;
    assert!(watchdog.state().wde, "outside the sequence WDE stays");
    watchdog.write(0x18, 10)?;
    assert_eq!(watchdog.write(0x2a, 12), Err(Refusal::Period));
    watchdog.write(0x21, 14)?;
    assert_eq!(watchdog.read(14)?, 0x21);
    assert_eq!(watchdog.next(14)?, None);
    Ok(())
}

#[test]
fn refusals_change_nothing() -> Result<(), Refusal> {
    let mut watchdog = Watchdog::new();
    watchdog.write(0x08, 7)?;
    let before = watchdog.clone();
    assert_eq!(watchdog.wdr(1 << 62), Err(Refusal::CycleTooLarge));
    assert_eq!(watchdog.serve(6), Err(Refusal::CyclePassed));
    assert_eq!(watchdog.read(256_000), Err(Refusal::EventDue));
    assert_eq!(watchdog, before);
    let mut area = [0xa5; 9];
    assert_eq!(watchdog.advance(256_000, &mut area)?, WatchdogAdvanced::Paused { sync: 255_875, written: 0 });
    assert_eq!(area, [0xa5; 9]);
    Ok(())
}
