//! The distance to the next event's tick, and how many compares tell it.

use paddlemauve::{Config, Distance, Timer, EVENT};

const TCCR0A: u16 = 0x44;
const TCCR0B: u16 = 0x45;
const TCNT0: u16 = 0x46;
const OCR0A: u16 = 0x47;
const OCR0B: u16 = 0x48;

/// Timer0 with registers written at cycle 0, as it stands then.
fn of(writes: &[(u16, u8)]) -> Distance {
    let mut timer = Timer::new(&Config::M328P_TIMER0).expect("the preset is accepted");
    for &(address, value) in writes {
        assert_eq!(timer.write(address, value, 0, &mut [0; EVENT]), Ok(0));
    }
    timer.distance()
}

#[test]
fn a_door_motor_on_fast_pwm() {
    let pwm = [(OCR0A, 64), (OCR0B, 192), (TCCR0A, 3), (TCCR0B, 1)];
    assert_eq!(of(&pwm), Distance { ticks: 65, flags: 2, looked: 2 });
}

#[test]
fn the_first_compare_one_tick_off_ends_the_search() {
    assert_eq!(of(&[]), Distance { ticks: 1, flags: 6, looked: 1 });
    assert_eq!(of(&[(OCR0A, 5), (TCNT0, 0)]), Distance { ticks: 1, flags: 0, looked: 2 });
    assert_eq!(of(&[(OCR0A, 2), (OCR0B, 1)]), Distance { ticks: 2, flags: 4, looked: 2 });
}

#[test]
fn a_blocked_match_counts_and_top_does_not() {
    assert_eq!(of(&[(OCR0A, 9), (TCNT0, 9), (TCCR0B, 1)]), Distance { ticks: 1, flags: 0, looked: 1 });
    assert_eq!(of(&[(OCR0A, 9), (OCR0B, 9), (TCNT0, 255)]), Distance { ticks: 1, flags: 1, looked: 2 });
}
