//! The plain counter: written from 01's words alone, it works every tick singly and knows no shortcut.

pub mod bends;
mod board;
mod calls;
mod edges;
mod flags;
mod halts;
mod log;
mod outputs;
mod pins;
mod refusals;
mod registers;
mod rules;
mod scheduler;
mod setup;
mod shift;
mod tables;
mod tick;
mod timer;

use std::rc::Rc;

use crate::script::{
    Answer, Areas, BoardState, Call, Config, Distance, Event, Order, PinLine, Sched, Side, State, Told,
};
use bends::Bend;
use board::Board;
use log::Log;
use scheduler::Scheduler;
use setup::Setup;
use timer::Timer;

#[derive(Clone)]
pub struct Plain {
    bend: Option<Bend>,
    timer: Option<Timer>,
    scheduler: Scheduler,
    board: Option<Box<Board>>,
}

impl Plain {
    pub fn new(bend: Option<Bend>) -> Self {
        Self { bend, timer: None, scheduler: Scheduler::default(), board: None }
    }

    /// Whether the timer has a register at an address.
    fn owns(&self, address: u16) -> bool {
        self.timer.as_ref().is_some_and(|timer| timer.setup.register(address).is_some())
    }

    /// The timer's next event.
    fn announced(&self) -> Option<Event> {
        self.timer.as_ref().and_then(Timer::announced)
    }

    /// The records into the area, from its start.
    fn store(&self, log: &Log, area: &mut [u8]) {
        let bytes = log.bytes.len();
        area[..bytes].copy_from_slice(&log.bytes);
        if self.bend == Some(Bend::AreaTouched) && bytes > 0 && bytes < area.len() {
            area[bytes] = 0;
        }
    }

    fn advance(&mut self, mut timer: Timer, cycle: u64, area: &mut [u8]) -> Answer {
        let mut log = Log::default();
        let paused = timer.advance(cycle, area.len(), &mut log);
        let reached = if timer.bent(Bend::PauseAcceptsCycle) { cycle } else { timer.sync };
        timer.latest = timer.latest.max(reached);
        self.store(&log, area);
        let (next, bytes) = (timer.announced(), log.bytes.len());
        self.timer = Some(timer);
        match paused {
            Some(cycle) => Answer::Paused { cycle, next, bytes },
            None => Answer::Done { value: None, next, bytes },
        }
    }

    fn work(&mut self, mut timer: Timer, call: Call, cycle: u64, area: &mut [u8]) -> Answer {
        let mut log = Log::default();
        let value = timer.work(call, cycle, &mut log);
        let bytes = log.bytes.len();
        let exceeds = bytes > area.len() || bytes > 0 && bytes == area.len() && timer.bent(Bend::FullAreaRefused);
        if exceeds && !timer.bent(Bend::RefusedKeepsWork) {
            return Answer::Refused(8);
        }
        if call != Call::Next || !timer.bent(Bend::NextKeepsLatest) {
            timer.latest = cycle;
        }
        let next = timer.announced();
        self.timer = Some(timer);
        if exceeds {
            return Answer::Refused(8);
        }
        self.store(&log, area);
        Answer::Done { value, next, bytes }
    }
}

impl Side for Plain {
    fn configure(&mut self, config: &Config) -> Answer {
        let setup = Setup::new(config, self.bend);
        if rules::broken(&setup) {
            return Answer::Refused(1);
        }
        self.timer = Some(Timer::new(Rc::new(setup)));
        Answer::Config
    }

    fn call(&mut self, call: Call, cycle: u64, area: &mut [u8]) -> Answer {
        let Some(timer) = &self.timer else {
            return Answer::NoTimer;
        };
        if let Some(number) = timer.refusal(call, cycle) {
            return Answer::Refused(number);
        }
        let timer = timer.clone();
        match call {
            Call::Advance => self.advance(timer, cycle, area),
            _ => self.work(timer, call, cycle, area),
        }
    }

    fn state(&self) -> Option<State> {
        self.timer.as_ref().map(Timer::state)
    }

    fn distance(&self) -> Option<Distance> {
        self.timer.as_ref().map(Timer::distance)
    }

    fn shift(&self, first: u64, second: u64) -> Answer {
        self.timer.as_ref().map_or(Answer::NoTimer, |timer| timer.shift(first, second))
    }

    fn pin(&self, pin: &PinLine) -> Answer {
        pins::resolve(pin, self.bend)
    }

    fn sched(&mut self, sched: Sched) -> Answer {
        self.scheduler.answer(sched, self.bend)
    }

    fn new_board(&mut self) {
        self.board = Some(Box::new(Board::new(self.bend)));
    }

    fn order(&mut self, order: Order, cycle: u64, areas: &mut Areas) -> Option<Told> {
        self.board.as_mut().map(|board| board.order(order, cycle, areas))
    }

    fn board_state(&self) -> Option<BoardState> {
        self.board.as_ref().map(|board| board.state())
    }
}
