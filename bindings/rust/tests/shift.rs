//! How far a late edge moves the capture.

use paddlemauve::{Config, Refusal, Timer, EVENT};

const TCCR1B: u16 = 0x81;
const ICR1: u16 = 0x86;
const ICP1: u8 = 14;
const LAST_CYCLE: u64 = (1 << 62) - 1;

/// Timer1 in a normal mode, with a clock, capturing rising edges.
fn timer1(clock: u8) -> Timer {
    let mut timer = Timer::new(&Config::M328P_TIMER1).expect("the preset is accepted");
    timer.write(TCCR1B, 0x40 | clock, 0, &mut []).expect("a control is written");
    timer
}

/// What is captured at a cycle.
fn captured(mut timer: Timer, cycle: u64) -> i32 {
    let mut area = [0; EVENT];
    timer.advance(cycle, &mut area).expect("time passes");
    timer.edge(ICP1, 1, cycle, &mut area).expect("an edge");
    let low = timer.read(ICR1, cycle).expect("the low byte");
    let high = timer.read(ICR1 + 1, cycle).expect("the high byte");
    i32::from(high) << 8 | i32::from(low)
}

#[test]
fn a_late_edge_moves_the_capture_by_the_shift() {
    for (clock, divisor) in [(1, 1), (2, 8), (3, 64), (4, 256), (5, 1024)] {
        let timer = timer1(clock);
        for (first, late) in [(1, 0), (7, 1), (63, 1), (64, 64), (1000, 4095), (1023, 1025)] {
            let moved = captured(timer.clone(), first + late) - captured(timer.clone(), first);
            assert_eq!(timer.shift(first, first + late), Ok(moved));
            assert_eq!(timer.shift(first + late, first), Ok(-moved));
            assert!((moved as u64).abs_diff(late / divisor) <= 1);
        }
    }
}

#[test]
fn edges_that_lie_too_far_apart() {
    let timer = timer1(2);
    assert_eq!(timer.shift(1, 32_767 * 8), Ok(32_767));
    assert_eq!(timer.shift(32_767 * 8, 1), Ok(-32_767));
    assert_eq!(timer.shift(1, 32_767 * 8 + 1), Err(Refusal::TooFarApart));
    assert_eq!(timer.shift(32_767 * 8 + 1, 1), Err(Refusal::TooFarApart));
    assert_eq!(timer1(0).shift(0, LAST_CYCLE), Ok(0));
}

#[test]
fn both_cycles_are_tested_and_nothing_changes() {
    let mut timer = timer1(1);
    timer.advance(100, &mut [0; EVENT]).expect("time passes");
    let before = timer.clone();
    assert_eq!(timer.shift(99, LAST_CYCLE + 1), Err(Refusal::CyclePassed));
    assert_eq!(timer.shift(LAST_CYCLE + 1, 99), Err(Refusal::CycleTooLarge));
    assert_eq!(timer.shift(100, 99), Err(Refusal::CyclePassed));
    assert_eq!(timer.shift(100, LAST_CYCLE + 1), Err(Refusal::CycleTooLarge));
    assert_eq!(timer.shift(70_000, 70_001), Ok(1), "past the next event");
    assert_eq!(timer, before);
}
