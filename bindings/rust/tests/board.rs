//! The board beside three timers of their own under the same calls: a million random orders. Answers, every byte of the
//! areas, the timers whole, GTCCR, next events and the scheduler's earliest are compared after each.

mod random;

use paddlemauve::{Answer, Board, BoardOutcome, Call, Config, Id, Next, Order, Outcome, Refusal, Timer};
use random::Rng;

const ORDERS: u64 = 1_000_000;

/// What stands in every byte of an area before each order.
const FILL: u8 = 0xa5;

const IDS: [Id; 3] = [Id::Timer0, Id::Timer1, Id::Timer2];

/// Addresses that are a timer's, GTCCR's, and nobody's.
const ADDRESSES: [u64; 40] = [
    0x35, 0x36, 0x37, 0x43, 0x43, 0x43, 0x44, 0x45, 0x45, 0x45, 0x46, 0x47, 0x48, 0x6e, 0x6f, 0x70, 0x80, 0x81, 0x81,
    0x82, 0x84, 0x85, 0x86, 0x87, 0x88, 0x89, 0x8a, 0x8b, 0xb0, 0xb1, 0xb1, 0xb2, 0xb3, 0xb4, 0x00, 0x34, 0x49, 0x83,
    0xb5, 0x1ff,
];

/// Three timers held apart, and GTCCR.
struct Three {
    timers: [Timer; 3],
    gtccr: u8,
}

/// What an address is: a timer and the call on it.
enum Place {
    Own(usize, Call),
    Gtccr,
    Nowhere,
}

fn reads(address: u16, register: Call) -> Place {
    match address {
        0x35..=0x37 => Place::Own(address as usize - 0x35, Call::Tifr),
        0x6e..=0x70 => Place::Own(address as usize - 0x6e, Call::Timsk),
        _ => register_at(address, register),
    }
}

fn writes(address: u16, value: u8) -> Place {
    match address {
        0x35..=0x37 => Place::Own(address as usize - 0x35, Call::WriteTifr(value)),
        0x6e..=0x70 => Place::Own(address as usize - 0x6e, Call::WriteTimsk(value)),
        _ => register_at(address, Call::Write(address, value)),
    }
}

fn register_at(address: u16, call: Call) -> Place {
    match address {
        0x43 => Place::Gtccr,
        0x44..=0x48 => Place::Own(0, call),
        0x80..=0x82 | 0x84..=0x8b => Place::Own(1, call),
        0xb0..=0xb4 => Place::Own(2, call),
        _ => Place::Nowhere,
    }
}

impl Three {
    fn new() -> Self {
        let configs = [Config::M328P_TIMER0, Config::M328P_TIMER1, Config::M328P_TIMER2];
        Self { timers: configs.map(|c| Timer::new(&c).expect("the preset is accepted")), gtccr: 0 }
    }

    fn call(&mut self, order: Order, cycle: u64, areas: &mut [Vec<u8>; 3]) -> BoardOutcome {
        match order {
            Order::Advance(id) => self.own(id as usize, Call::Advance, cycle, areas),
            Order::Next(id) => self.own(id as usize, Call::Next, cycle, areas),
            Order::Reset(id) => self.own(id as usize, Call::Reset, cycle, areas),
            Order::Edge { id, pin, level } => self.own(id as usize, Call::Edge { pin, level }, cycle, areas),
            Order::Route(id, level) => self.own(id as usize, Call::Route(level), cycle, areas),
            Order::Output(id, level) => self.own(id as usize, Call::Output(level), cycle, areas),
            Order::Read(address) => self.at(reads(address, Call::Read(address)), None, cycle, areas),
            Order::Peek(address) => self.at(reads(address, Call::Peek(address)), None, cycle, areas),
            Order::Write(address, value) => self.at(writes(address, value), Some(value), cycle, areas),
            Order::Sleep(mode) => self.all(&[Call::Sleep(mode)], cycle),
            Order::Wake => self.all(&[Call::Wake], cycle),
            Order::Reduce(prr) => self.all(&[Call::Reduce(prr as u16)], cycle),
            Order::Tifr(id) => self.own(id as usize, Call::Tifr, cycle, areas),
            Order::Timsk(id) => self.own(id as usize, Call::Timsk, cycle, areas),
            Order::WriteTifr(id, ones) => self.own(id as usize, Call::WriteTifr(ones), cycle, areas),
            Order::WriteTimsk(id, mask) => self.own(id as usize, Call::WriteTimsk(mask), cycle, areas),
        }
    }

    fn own(&mut self, i: usize, call: Call, cycle: u64, areas: &mut [Vec<u8>; 3]) -> BoardOutcome {
        let Outcome { answer, written: bytes, .. } = self.timers[i].call(call, cycle, &mut areas[i]);
        let mut written = [0; 3];
        written[i] = bytes;
        BoardOutcome { answer, written }
    }

    /// An order by address; a byte to GTCCR is TSM where bit 7 changes, and then the prescaler resets.
    fn at(&mut self, place: Place, value: Option<u8>, cycle: u64, areas: &mut [Vec<u8>; 3]) -> BoardOutcome {
        match (place, value) {
            (Place::Own(i, call), _) => self.own(i, call, cycle, areas),
            (Place::Nowhere, _) => silent(Answer::Refused(Refusal::Nowhere)),
            (Place::Gtccr, None) => silent(Answer::Value(self.gtccr)),
            (Place::Gtccr, Some(v)) => {
                let calls = [Call::Tsm(v >> 7), Call::Prescale(v & 3)];
                let outcome = self.all(&calls[(v >> 7 == self.gtccr >> 7) as usize..], cycle);
                if outcome.answer == Answer::Done {
                    self.gtccr = if v < 0x80 { 0 } else { v & 0x83 };
                }
                outcome
            }
        }
    }

    /// Calls on all three; none is changed where one refuses one of them.
    fn all(&mut self, calls: &[Call], cycle: u64) -> BoardOutcome {
        let mut after = self.timers.clone();
        let refusals: Vec<Refusal> = after.iter_mut().filter_map(|t| refusal(t, calls, cycle)).collect();
        match refusals.into_iter().min_by_key(|r| r.number()) {
            Some(why) => silent(Answer::Refused(why)),
            None => {
                self.timers = after;
                silent(Answer::Done)
            }
        }
    }
}

fn silent(answer: Answer) -> BoardOutcome {
    BoardOutcome { answer, written: [0; 3] }
}

/// The first of the calls that is refused; none writes a record.
fn refusal(timer: &mut Timer, calls: &[Call], cycle: u64) -> Option<Refusal> {
    calls.iter().find_map(|&call| match timer.call(call, cycle, &mut []) {
        Outcome { answer: Answer::Refused(why), .. } => Some(why),
        outcome => {
            assert_eq!((outcome.answer, outcome.written), (Answer::Done, 0));
            None
        }
    })
}

fn order(rng: &mut Rng) -> Order {
    let id = IDS[rng.below(3) as usize];
    let level = rng.pick(&[0, 1, 0, 1, 0, 1, 0, 2]) as u8;
    let address = rng.pick(&ADDRESSES) as u16;
    let byte = rng.below(256) as u8;
    match rng.below(176) {
        0..=54 => Order::Advance(id),
        55..=58 => Order::Next(id),
        59 => Order::Reset(id),
        60..=67 => Order::Edge { id, pin: rng.pick(&[6, 11, 14, 15]) as u8, level },
        68..=71 => Order::Route(id, level),
        72..=75 => Order::Output(id, level),
        76..=99 => Order::Read(address),
        100..=115 => Order::Peek(address),
        116..=149 => Order::Write(address, byte),
        150 => Order::Sleep(byte % 9),
        151..=156 => Order::Wake,
        157..=162 => Order::Tifr(id),
        163..=166 => Order::Timsk(id),
        167..=170 => Order::WriteTifr(id, byte),
        171..=172 => Order::WriteTimsk(id, byte),
        _ => Order::Reduce(byte & rng.pick(&[0, 0, 8, 0x20, 0x40, 0x68]) as u8),
    }
}

/// A cycle behind the last one: mostly the same or a little on, seldom before it or past 2^62 − 1.
fn cycle_after(rng: &mut Rng, last: u64) -> u64 {
    match rng.below(64) {
        0 => last.saturating_sub(rng.below(3)),
        1 if rng.below(100) == 0 => 1 << 62,
        1..=20 => last,
        21..=50 => last + rng.below(40),
        51..=62 => last + rng.below(3_000),
        _ => last + rng.below(200_000),
    }
}

/// A timer's next event, where no event is past.
fn announced(timer: &Timer) -> Option<Option<Next>> {
    timer.clone().next(timer.state().latest).ok()
}

#[derive(Debug, Default)]
struct Figures {
    /// By the refusal's number.
    refused: [u64; 18],
    paused: u64,
    records: usize,
    /// Timers whose event is past, where their own `next` is refused and so cannot be compared.
    past: u64,
}

impl Figures {
    fn note(&mut self, outcome: BoardOutcome) {
        self.records += outcome.written.iter().sum::<usize>() / 10;
        match outcome.answer {
            Answer::Refused(why) => self.refused[why.number() as usize] += 1,
            Answer::Paused(..) => self.paused += 1,
            _ => (),
        }
    }
}

/// An order on both, each with areas of its own.
fn same(board: &mut Board, three: &mut Three, order: Order, cycle: u64, size: usize) -> BoardOutcome {
    let mut mine: [Vec<u8>; 3] = std::array::from_fn(|_| vec![FILL; size]);
    let mut theirs = mine.clone();
    let [zero, one, two] = &mut mine;
    let outcome = board.call(order, cycle, [zero, one, two]);
    assert_eq!(outcome, three.call(order, cycle, &mut theirs), "{order:?} at {cycle}");
    assert_eq!(mine, theirs, "{order:?} at {cycle}");
    assert_eq!(IDS.map(|id| board.timer(id)), three.timers, "{order:?} at {cycle}");
    assert_eq!(board.gtccr(), three.gtccr, "{order:?} at {cycle}");
    outcome
}

/// Orders on a fresh board and on three fresh timers.
fn compare(seed: u64, orders: u64, figures: &mut Figures) {
    let mut rng = Rng(seed);
    let mut board = Board::new();
    let mut three = Three::new();
    let mut last = 0;
    for _ in 0..orders {
        let cycle = cycle_after(&mut rng, last);
        let order = order(&mut rng);
        let size = rng.pick(&[0, 9, 10, 20, 30, 110, 110, 110, 110, 200]) as usize;
        let outcome = same(&mut board, &mut three, order, cycle, size);
        for (next, timer) in board.nexts().iter().zip(&three.timers) {
            match announced(timer) {
                Some(theirs) => assert_eq!(*next, theirs, "seed {seed}: {order:?} at {cycle}"),
                None => figures.past += 1,
            }
        }
        assert_eq!(board.earliest(), board.nexts().iter().flatten().map(|n| n.cycle).min());
        figures.note(outcome);
        if cycle < 1 << 62 {
            last = cycle;
        }
    }
}

#[test]
fn the_board_is_three_timers() {
    let mut figures = Figures::default();
    for seed in 0..ORDERS / 500 {
        compare(seed, 500, &mut figures);
    }
    println!("{ORDERS} orders: {figures:?}");
    assert!([2, 3, 5, 6, 7, 8, 16].iter().all(|&n| figures.refused[n] > 0), "{figures:?}");
}

/// TIFR and TIMSK by the timer's id are those at the sheet's addresses, and those of no other timer.
#[test]
fn flags_go_by_id_and_by_address() {
    let mut board = Board::new();
    for (i, id) in IDS.into_iter().enumerate() {
        assert_eq!(board.write_timsk(id, 0x07 >> i, 0), Ok(()));
    }
    assert_eq!(IDS.map(|id| board.timsk(id, 0)), [Ok(7), Ok(3), Ok(1)]);
    assert_eq!([0x6e, 0x6f, 0x70].map(|address| board.read(address, 0)), [Ok(7), Ok(3), Ok(1)]);

    assert_eq!(board.write(0xb1, 1, 0, Default::default()), Ok([0; 3])); // TCCR2B: clock / 1
    assert!(board.advance(Id::Timer2, 1, &mut [0; 110]).is_ok());
    assert_eq!(IDS.map(|id| board.tifr(id, 1)), [Ok(0), Ok(0), Ok(6)]);
    assert_eq!(board.write_tifr(Id::Timer2, 2, 1), Ok(()));
    assert_eq!((board.tifr(Id::Timer2, 1), board.read(0x37, 1)), (Ok(4), Ok(4)));
    assert_eq!(board.tifr(Id::Timer2, 0), Err(Refusal::CyclePassed));
    assert_eq!(board.tifr(Id::Timer2, 256), Err(Refusal::EventDue));
}

/// Power-save and extended standby leave Timer2 counting and halt the other two (02, 2.6, by the sheet).
#[test]
fn timer2_runs_on_in_power_save() {
    for (mode, counts) in [(1, false), (2, false), (3, true), (6, false), (7, true)] {
        let mut board = Board::new();
        for (compare, control) in [(0x47, 0x45), (0xb3, 0xb1)] {
            for (address, value) in [(compare, 0xff), (compare + 1, 0xff), (control, 1)] {
                assert_eq!(board.write(address, value, 0, Default::default()), Ok([0; 3]));
            }
        }
        assert_eq!(board.sleep(mode, 10), Ok(()));
        let timer2 = if counts { 30 } else { 10 };
        assert_eq!((board.peek(0x46, 30), board.peek(0xb2, 30)), (Ok(10), Ok(timer2)), "mode {mode}");
    }
}
