//! A call of the board beside the same call of a timer held alone: instructions, ours alone.

use std::hint::black_box;

use crate::callgrind;
use paddlemauve::{Advanced, Board, Config, Id, Timer};

/// What is done on both.
const ROWS: [(&str, &str); 3] = [
    ("poll", "Timer0 normal, /1, OCR0A 100, OCR0B 200: an advance to the next event, and the one after it"),
    ("read", "Timer1 /8: TCNT1 low every 7 cycles, an event that is due first"),
    ("sleep", "a sleep and a wake: of one timer, of all three"),
];

const STEPS: u64 = 500;

pub fn print() {
    println!();
    println!("A step of the board beside one of a timer held alone.");
    println!();
    println!("| step | a timer: instructions | the board | ratio |");
    println!("|---|---|---|---|");
    for (row, what) in ROWS {
        let [timer, board] = ["timer", "board"]
            .map(|side| callgrind::a_step(|steps| ["board".into(), row.into(), side.into(), steps.to_string()], STEPS));
        println!("| {what} | {timer:.0} | {board:.0} | {:.2} |", board / timer);
    }
}

/// Works so many steps of a row on a side; yields a sum, the same on both.
pub fn run(row: &str, side: &str, steps: u64) -> Option<u64> {
    Some(match (row, side) {
        ("poll", "timer") => timer_polls(steps),
        ("poll", "board") => board_polls(steps),
        ("read", "timer") => timer_reads(steps),
        ("read", "board") => board_reads(steps),
        ("sleep", "timer") => timer_sleeps(steps),
        ("sleep", "board") => board_sleeps(steps),
        _ => return None,
    })
}

const POLL: [(u16, u8); 3] = [(0x47, 100), (0x48, 200), (0x45, 1)];

fn timer_polls(steps: u64) -> u64 {
    let mut area = [0; 110];
    let mut timer = Timer::new(&Config::M328P_TIMER0).expect("the preset is accepted");
    for (address, value) in POLL {
        timer.write(address, value, 0, &mut area).expect("a write at cycle 0");
    }
    let mut next = timer.next(0).expect("no event is due").expect("it runs").cycle;
    (0..steps)
        .map(|_| {
            let advanced = timer.advance(black_box(next), &mut area).expect("cycles rise");
            next = timer.next(next).expect("no event is due").expect("it runs").cycle;
            bytes(advanced) + next
        })
        .sum()
}

fn board_polls(steps: u64) -> u64 {
    let mut area = [0; 110];
    let mut board = Board::new();
    for (address, value) in POLL {
        board.write(address, value, 0, [&mut area, &mut [], &mut []]).expect("a write at cycle 0");
    }
    let mut next = board.nexts()[0].expect("it runs").cycle;
    (0..steps)
        .map(|_| {
            let advanced = board.advance(Id::Timer0, black_box(next), &mut area).expect("cycles rise");
            next = board.nexts()[0].expect("it runs").cycle;
            bytes(advanced) + next
        })
        .sum()
}

fn timer_reads(steps: u64) -> u64 {
    let mut area = [0; 110];
    let mut timer = Timer::new(&Config::M328P_TIMER1).expect("the preset is accepted");
    timer.write(0x81, 2, 0, &mut area).expect("a write at cycle 0");
    let mut next = timer.next(0).expect("no event is due").expect("it runs").cycle;
    (1..=steps)
        .map(|step| {
            let cycle = 7 * step;
            if next <= cycle {
                timer.advance(cycle, &mut area).expect("cycles rise");
                next = timer.next(cycle).expect("no event is due").expect("it runs").cycle;
            }
            timer.read(black_box(0x84), cycle).expect("no event is due") as u64
        })
        .sum()
}

fn board_reads(steps: u64) -> u64 {
    let mut area = [0; 110];
    let mut board = Board::new();
    board.write(0x81, 2, 0, [&mut [], &mut area, &mut []]).expect("a write at cycle 0");
    (1..=steps)
        .map(|step| {
            let cycle = 7 * step;
            if board.nexts()[1].expect("it runs").cycle <= cycle {
                board.advance(Id::Timer1, cycle, &mut area).expect("cycles rise");
            }
            board.read(black_box(0x84), cycle).expect("no event is due") as u64
        })
        .sum()
}

fn timer_sleeps(steps: u64) -> u64 {
    let mut timer = Timer::new(&Config::M328P_TIMER0).expect("the preset is accepted");
    for step in 0..steps {
        timer.sleep(black_box(2), 2 * step).expect("it is awake");
        timer.wake(2 * step + 1).expect("no event is due");
    }
    timer.state().latest
}

fn board_sleeps(steps: u64) -> u64 {
    let mut board = Board::new();
    for step in 0..steps {
        board.sleep(black_box(2), 2 * step).expect("all are awake");
        board.wake(2 * step + 1).expect("no event is due");
    }
    board.timer(Id::Timer0).state().latest
}

fn bytes(advanced: Advanced) -> u64 {
    match advanced {
        Advanced::Done { written, .. } | Advanced::Paused { written, .. } => written as u64,
    }
}
