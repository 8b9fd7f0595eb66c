//! The examples of the table of refusals: each changes neither the timer nor the area.

use paddlemauve::{Advanced, Answer, Board, Call, Capture, Config, Outcome, Refusal, Timer};

fn timer0() -> Timer {
    Timer::new(&Config::M328P_TIMER0).expect("the preset is accepted")
}

/// A call that is refused so, and leaves timer and area as they were.
fn refuses(timer: &mut Timer, call: Call, cycle: u64, size: usize, why: Refusal) {
    let before = timer.clone();
    let mut area = vec![0xa5; size];
    let Outcome { answer, written, .. } = timer.call(call, cycle, &mut area);
    assert_eq!((answer, written), (Answer::Refused(why), 0));
    assert_eq!(*timer, before);
    assert!(area.iter().all(|&b| b == 0xa5));
}

#[test]
fn numbers() {
    let all = [
        Refusal::Configuration,
        Refusal::CycleTooLarge,
        Refusal::CyclePassed,
        Refusal::Address,
        Refusal::Level,
        Refusal::EventDue,
        Refusal::Asleep,
        Refusal::AreaTooSmall,
        Refusal::Record,
        Refusal::RecordOrder,
        Refusal::RecordTooLate,
        Refusal::Nowhere,
        Refusal::Period,
        Refusal::TooFarApart,
        Refusal::LogFull,
        Refusal::NotHeld,
        Refusal::LogArea,
        Refusal::Rule,
    ];
    assert_eq!(all.map(Refusal::number), [1, 2, 3, 4, 5, 6, 7, 8, 13, 14, 15, 16, 17, 18, 19, 20, 21, 22]);
    assert_eq!(Refusal::EventDue.to_string(), "refused 6: advance to the cycle first");
}

#[test]
fn a_narrow_timer_has_no_icr() {
    let config = Config { icr: Capture::at(0x60, 0x20, None), ..Config::M328P_TIMER0 };
    assert_eq!(Timer::new(&config), Err(Refusal::Configuration));
}

#[test]
fn a_cycle_is_below_2_to_the_62() {
    refuses(&mut timer0(), Call::Next, 1 << 62, 110, Refusal::CycleTooLarge);
    assert_eq!(timer0().next((1 << 62) - 1), Ok(None));
}

#[test]
fn cycles_do_not_fall() {
    let mut timer = timer0();
    assert_eq!(timer.next(10), Ok(None));
    refuses(&mut timer, Call::Next, 9, 110, Refusal::CyclePassed);
}

#[test]
fn an_address_is_a_register() {
    refuses(&mut timer0(), Call::Read(0), 10, 110, Refusal::Address);
}

#[test]
fn a_level_is_0_or_1_and_a_mode_at_most_7() {
    refuses(&mut timer0(), Call::Edge { pin: 6, level: 2 }, 10, 110, Refusal::Level);
    refuses(&mut timer0(), Call::Sleep(8), 10, 110, Refusal::Level);
    assert_eq!(timer0().sleep(7, 10), Ok(()));
}

#[test]
fn an_event_that_is_due_comes_first() {
    let mut timer = timer0();
    assert_eq!(timer.write(0x45, 3, 0, &mut []), Ok(0));
    refuses(&mut timer, Call::Read(0x46), 64, 110, Refusal::EventDue);
}

#[test]
fn a_prescaler_reset_waits_for_the_wake() {
    let mut timer = timer0();
    assert_eq!(timer.write(0x45, 3, 0, &mut []), Ok(0));
    assert_eq!(timer.sleep(2, 0), Ok(()));
    refuses(&mut timer, Call::Prescale(1), 0, 110, Refusal::Asleep);
}

#[test]
fn records_fit_the_area() {
    refuses(&mut timer0(), Call::Write(0x44, 0x80), 0, 9, Refusal::AreaTooSmall);
    assert_eq!(timer0().write(0x44, 0x80, 0, &mut [0; 10]), Ok(10));
}

#[test]
fn an_advance_stops_where_the_area_is_full_and_goes_on() {
    let mut timer = timer0();
    assert_eq!(timer.write(0x45, 1, 0, &mut []), Ok(0));
    assert_eq!(timer.advance(300, &mut [0; 49]), Ok(Advanced::Paused { sync: 255, written: 30, flags: 0x01 }));
    assert_eq!(timer.state().latest, 255);
    assert_eq!(timer.advance(300, &mut [0; 49]), Ok(Advanced::Paused { sync: 256, written: 20, flags: 0x06 }));
    assert_eq!(timer.advance(300, &mut [0; 49]), Ok(Advanced::Done { written: 30, flags: 0x01 }));
    assert_eq!(timer.state().latest, 300);
}

#[test]
fn an_address_is_the_boards_before_the_cycle_counts() {
    let mut board = Board::new();
    let before = board.clone();
    assert_eq!(board.read(0x83, 1 << 62), Err(Refusal::Nowhere));
    assert_eq!(board.read(0x46, 1 << 62), Err(Refusal::CycleTooLarge));
    assert_eq!(board, before);
}

#[test]
fn one_timer_that_refuses_keeps_all_three_awake() {
    let mut board = Board::new();
    assert_eq!(board.write(0xb1, 1, 0, Default::default()), Ok([0; 3]));
    let before = board.clone();
    assert_eq!(board.sleep(2, 1), Err(Refusal::EventDue));
    assert_eq!(board, before);
    assert_eq!(board.sleep(8, 0), Err(Refusal::Level));
    assert_eq!(board, before);
    assert_eq!(board.sleep(2, 0), Ok(()));
    assert_eq!(board.nexts(), [None; 3]);
}
