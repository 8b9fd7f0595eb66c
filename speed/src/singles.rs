//! Each other call by itself, by `Timer::call`: the calls of a busy bench have rows of their own.

use crate::callgrind;
use paddlemauve::{Answer, Call, Config, Timer};

const STEPS: u64 = 100;

/// Calls that are made step after step: one, or those that turn something and turn it back.
struct Single {
    name: &'static str,
    /// Written before, beside compares at the top and /1024, so that no event is due.
    ready: &'static [(u16, u8)],
    /// Cycles between two steps.
    step: u64,
    calls: &'static [Call],
}

/// Timer1 in normal mode, /1024.
const fn normal(name: &'static str, calls: &'static [Call]) -> Single {
    Single { name, ready: &[], step: 7, calls }
}

/// Timer1 in phase correct PWM with ICR1 as TOP, /1024.
const fn phase(name: &'static str, calls: &'static [Call]) -> Single {
    Single { name, ready: &[(0x87, 0xff), (0x86, 0xff), (0x80, 2), (0x81, 0x15)], step: 7, calls }
}

const SINGLES: [Single; 35] = [
    normal("OCR1A low written", &[Call::Write(0x88, 0xff)]),
    normal("OCR1A high written", &[Call::Write(0x89, 0xff)]),
    normal("ICR1 low written", &[Call::Write(0x86, 1)]),
    normal("TCNT1 low written", &[Call::Write(0x84, 3)]),
    normal("TCCR1A written", &[Call::Write(0x80, 0)]),
    normal("TCCR1B written", &[Call::Write(0x81, 5)]),
    normal("TCCR1C written", &[Call::Write(0x82, 0)]),
    normal("OCR1A low read", &[Call::Read(0x88)]),
    normal("OCR1A low peeked", &[Call::Peek(0x88)]),
    normal("TIMSK read", &[Call::Timsk]),
    normal("TIMSK written", &[Call::WriteTimsk(0)]),
    normal("next event", &[Call::Next]),
    normal("sleep in idle", &[Call::Sleep(0)]),
    normal("power reduction off", &[Call::Reduce(0)]),
    normal("TSM off", &[Call::Tsm(0)]),
    normal("comparator not routed", &[Call::Route(0)]),
    normal("edge of another pin", &[Call::Edge { pin: 200, level: 1 }]),
    normal("reset", &[Call::Reset]),
    normal("sleep in power-down, and wake", &[Call::Sleep(2), Call::Wake]),
    normal("power reduction on, and off", &[Call::Reduce(0xff), Call::Reduce(0)]),
    normal("TSM on, and off", &[Call::Tsm(1), Call::Tsm(0)]),
    normal("comparator routed, and not", &[Call::Route(1), Call::Route(0)]),
    normal("own prescaler reset", &[Call::Prescale(1)]),
    normal("capture", &[Call::Edge { pin: 14, level: 0 }]),
    Single { name: "tick of the T pin", ready: &[(0x81, 7)], step: 7, calls: &[Call::Edge { pin: 11, level: 1 }] },
    phase("phase correct: TCNT1 low written", &[Call::Write(0x84, 3)]),
    phase("phase correct: TCCR1A written", &[Call::Write(0x80, 2)]),
    phase("phase correct: OCR1A low read", &[Call::Read(0x88)]),
    phase("phase correct: TIMSK written", &[Call::WriteTimsk(0)]),
    phase("phase correct: sleep in power-down, and wake", &[Call::Sleep(2), Call::Wake]),
    phase("phase correct: power reduction on, and off", &[Call::Reduce(0xff), Call::Reduce(0)]),
    phase("phase correct: TSM on, and off", &[Call::Tsm(1), Call::Tsm(0)]),
    phase("phase correct: own prescaler reset", &[Call::Prescale(1)]),
    Single {
        name: "advance over an event of phase correct PWM",
        ready: &[(0x87, 0), (0x86, 50), (0x80, 2), (0x81, 0x11)],
        step: 50,
        calls: &[Call::Advance],
    },
    Single {
        name: "advance over a blocked match, and TCNT1 written",
        ready: &[(0x89, 0), (0x88, 0xff), (0x85, 0), (0x81, 1)],
        step: 50,
        calls: &[Call::Advance, Call::Write(0x84, 0xff)],
    },
];

pub fn print() {
    println!();
    println!("Each other call by itself, accepted, some cycles after the one before; of a pair both together.");
    println!();
    println!("| call | instructions |");
    println!("|---|---|");
    for (place, single) in SINGLES.iter().enumerate() {
        let counted = callgrind::a_step(|steps| ["single".into(), place.to_string(), steps.to_string()], STEPS);
        println!("| {} | {counted:.0} |", single.name);
    }
}

/// Makes a row's calls so many times; yields the bytes written, or nothing where there is no such row.
pub fn run(place: usize, steps: u64) -> Option<usize> {
    let single = SINGLES.get(place)?;
    let mut area = [0; 4096];
    let mut timer = Timer::new(&Config::M328P_TIMER1).expect("the preset is accepted");
    let mut made = |call, cycle| {
        let outcome = timer.call(call, cycle, &mut area);
        match outcome.answer {
            Answer::Refused(why) => panic!("{}, {call:?}: {why}", single.name),
            _ => outcome.written,
        }
    };
    let compares = [(0x89, 0xff), (0x88, 0xff), (0x8b, 0xff), (0x8a, 0xff), (0x81, 5)];
    for (address, value) in compares.iter().chain(single.ready) {
        made(Call::Write(*address, *value), 0);
    }
    let mut written = 0;
    for k in 1..=steps {
        for call in single.calls {
            written += made(*call, single.step * k);
        }
    }
    Some(written)
}
