//! The judge: the unchanged Rust, behind 01's table of refusals and its record area. What the Rust does is
//! asked of the Rust; what 01 adds (refusals, areas, pauses, the latest cycle) is added here.

mod advance;
mod bench;
mod board;
mod calls;
mod pins;
mod records;
mod refusals;
mod rules;
mod scheduler;
pub mod setup;

use std::panic::{catch_unwind, AssertUnwindSafe};

use mcs::scheduler::Scheduler;
use mcs::timer::Inside;

use crate::plain::Plain;
use crate::script::{
    Answer, Areas, BoardState, Call, Config, Distance, Event, Order, PinLine, Sched, Side, State, Told,
};
use bench::Bench;
use board::Board;

/// Whose word counts where 01 lets the sheet decide against the Rust.
#[derive(Clone, Copy, Debug, PartialEq, Eq)]
pub enum Follow {
    Rust,
    Sheet,
}

/// A timer of the script.
#[derive(Clone)]
struct Held {
    config: Config,
    bench: Bench,
    latest: u64,
    /// The Rust was followed into a state that the sheet does not know, where its own event may be stale.
    drifted: bool,
}

/// What a call made of the timer.
struct Outcome {
    held: Held,
    answer: Answer,
    records: Vec<u8>,
}

#[derive(Clone)]
pub struct Judge {
    follow: Follow,
    /// Refusal 7 is left out, to see what the Rust does there.
    past_seven: bool,
    held: Option<Held>,
    scheduler: Scheduler,
    /// For the odometer, which the Rust has not.
    plain: Option<Plain>,
    board: Option<Box<Board>>,
}

/// What the generator aims by.
pub struct View<'a> {
    pub config: &'a Config,
    pub inside: Inside,
    pub next: Option<u64>,
    pub latest: u64,
}

impl Judge {
    pub fn new(follow: Follow) -> Self {
        Self { follow, past_seven: false, held: None, scheduler: Scheduler::new(), plain: None, board: None }
    }

    /// With the odometer of a plain counter that is fed the same calls.
    pub fn counting(self) -> Self {
        Self { plain: Some(Plain::new(None)), ..self }
    }

    /// The Rust, also where refusal 7 would keep it from a state that it cannot stand.
    pub fn past_seven() -> Self {
        Self { past_seven: true, ..Self::new(Follow::Rust) }
    }

    pub fn view(&self) -> Option<View<'_>> {
        self.held.as_ref().map(|h| View {
            config: &h.config,
            inside: h.bench.timer.inside(),
            next: h.bench.next_event(),
            latest: h.latest,
        })
    }

    /// The board, where the script has one.
    pub fn board(&self) -> Option<&Board> {
        self.board.as_deref()
    }

    /// Whether the timer has a register at an address.
    fn owns(&self, address: u16) -> bool {
        self.held.as_ref().is_some_and(|held| held.bench.timer.registers().contains(&(address, 0)))
    }

    /// The timer's next event.
    fn announced(&self) -> Option<Event> {
        self.held.as_ref().and_then(|held| held.bench.announced())
    }

    /// How many ticks lie between the sync cycle and `cycle`, as the timer stands.
    pub fn ticks_to(&self, cycle: u64) -> u64 {
        self.view().map_or(0, |v| cycle.saturating_sub(v.inside.last_sync).checked_div(v.inside.divisor).unwrap_or(0))
    }

    /// The call's outcome in the Rust, marked where the sheet's is another.
    fn follow_rust(&self, held: &Held, call: Call, cycle: u64, room: usize) -> Outcome {
        let mut rust = held.outcome(call, cycle, room, Follow::Rust);
        let sheet = held.outcome(call, cycle, room, Follow::Sheet);
        if rust.answer != sheet.answer || rust.records != sheet.records || rust.held.state() != sheet.held.state() {
            rust.answer = Answer::Differs(Box::new(rust.answer));
            rust.held.drifted = true;
        }
        rust
    }
}

impl Held {
    /// The call worked, unless its records exceed the area.
    fn outcome(&self, call: Call, cycle: u64, room: usize, follow: Follow) -> Outcome {
        let mut held = self.clone();
        // The Rust's own promises are not asked for where it skips down.
        let checked = !self.drifted && (follow == Follow::Sheet || !self.bench.timer.skips_down());
        let worked = held.bench.worked(call, cycle, room, follow, checked);
        if worked.bytes.len() > room {
            return Outcome { held: self.clone(), answer: Answer::Refused(8), records: Vec::new() };
        }
        held.latest = held.latest.max(worked.paused.unwrap_or(cycle));
        let bytes = worked.bytes.len();
        let answer = match worked.paused {
            Some(cycle) => Answer::Paused { cycle, next: held.bench.announced(), bytes },
            None => Answer::Done { value: worked.value, next: held.bench.announced(), bytes },
        };
        Outcome { held, answer, records: worked.bytes }
    }

    fn state(&self) -> State {
        self.bench.state(&self.config, self.latest)
    }

    /// How many ticks later a second edge is captured, by the tick numbers that the Rust's own sync reckons with.
    fn shift(&self, first: u64, second: u64) -> Answer {
        let t = self.bench.timer.inside();
        let number = |cycle: u64| ((cycle - t.ps_base) / t.divisor) as i64;
        let far = t.divisor > 0 && first.abs_diff(second) >= 32_767 * t.divisor;
        match refusals::late(self, first).or(refusals::late(self, second)) {
            Some(number) => Answer::Refused(number),
            None if far => Answer::Refused(18),
            None if t.divisor == 0 => Answer::Shift(0),
            None => Answer::Shift(number(second) - number(first)),
        }
    }
}

impl Side for Judge {
    fn configure(&mut self, config: &Config) -> Answer {
        if !rules::accepted(config) {
            return Answer::Refused(1);
        }
        self.plain.as_mut().map(|plain| plain.configure(config));
        self.held = Some(Held { config: config.clone(), bench: Bench::new(config), latest: 0, drifted: false });
        Answer::Config
    }

    fn call(&mut self, call: Call, cycle: u64, area: &mut [u8]) -> Answer {
        self.plain.as_mut().map(|plain| plain.call(call, cycle, &mut area.to_vec()));
        let Some(held) = &self.held else {
            return Answer::NoTimer;
        };
        let refusal = refusals::number(held, call, cycle);
        if let Some(number) = refusal.filter(|&n| n != 7 || !self.past_seven) {
            return Answer::Refused(number);
        }
        let work = || match self.follow {
            Follow::Sheet => held.outcome(call, cycle, area.len(), Follow::Sheet),
            Follow::Rust => self.follow_rust(held, call, cycle, area.len()),
        };
        let outcome = if self.past_seven { catch_unwind(AssertUnwindSafe(work)) } else { Ok(work()) };
        match outcome {
            Ok(outcome) => {
                area[..outcome.records.len()].copy_from_slice(&outcome.records);
                self.held = Some(outcome.held);
                outcome.answer
            }
            Err(why) => Answer::Panics(why.downcast_ref::<&str>().unwrap_or(&"without a message").to_string()),
        }
    }

    fn state(&self) -> Option<State> {
        let odometer = self.plain.as_ref().and_then(Plain::state).and_then(|state| state.odometer);
        self.held.as_ref().map(|held| State { odometer, ..held.state() })
    }

    fn distance(&self) -> Option<Distance> {
        let flags = self.plain.as_ref().and_then(Plain::distance).map_or(0, |distance| distance.flags);
        self.held.as_ref().map(|held| held.bench.distance(&held.config, flags))
    }

    fn shift(&self, first: u64, second: u64) -> Answer {
        self.held.as_ref().map_or(Answer::NoTimer, |held| held.shift(first, second))
    }

    fn pin(&self, pin: &PinLine) -> Answer {
        pins::resolve(pin)
    }

    fn sched(&mut self, sched: Sched) -> Answer {
        scheduler::answer(&mut self.scheduler, sched)
    }

    fn new_board(&mut self) {
        self.board = Some(Box::new(Board::new(self.follow)));
    }

    fn order(&mut self, order: Order, cycle: u64, areas: &mut Areas) -> Option<Told> {
        self.board.as_mut().map(|board| board.order(order, cycle, areas))
    }

    fn board_state(&self) -> Option<BoardState> {
        self.board.as_ref().map(|board| board.state())
    }
}
