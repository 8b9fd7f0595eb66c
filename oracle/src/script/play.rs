//! A run of one script: lines in, answers out, and the area that every call is given.

use std::fs;
use std::io::{self, BufRead, Write};

use super::answer::{Answer, Distance, State};
use super::board::{Areas, BoardLine, BoardState, Order, Told};
use super::command::{Call, Command, Sched};
use super::config::Config;
use super::pin::PinLine;
use super::words::{Read, Why};
use crate::door::Doors;
use crate::lists::{self, Items, WritesLine};
use crate::log::Log;
use crate::watchdog::{Watchdog, Wdt};

/// What stands in every byte of the area before each call.
const FILL: u8 = 0xa5;

/// Where records are kept.
pub const RECORDED: &str = "door.log";

/// The longest line in bytes.
const LONGEST: usize = 500;

/// One that answers a script: the judge or the plain counter.
pub trait Side {
    fn configure(&mut self, config: &Config) -> Answer;
    fn call(&mut self, call: Call, cycle: u64, area: &mut [u8]) -> Answer;
    fn state(&self) -> Option<State>;
    fn distance(&self) -> Option<Distance>;
    fn shift(&self, first: u64, second: u64) -> Answer;
    fn pin(&self, pin: &PinLine) -> Answer;
    fn sched(&mut self, sched: Sched) -> Answer;
    /// A fresh board.
    fn new_board(&mut self);
    fn order(&mut self, order: Order, cycle: u64, areas: &mut Areas) -> Option<Told>;
    fn board_state(&self) -> Option<BoardState>;
}

pub struct Play<S> {
    pub side: S,
    /// The same for both sides: the Rust has none of these.
    watchdog: Option<Watchdog>,
    pub doors: Doors,
    log: Log,
    items: Items,
    /// What door.log holds, once records are kept.
    pub recorded: Option<Vec<u8>>,
    /// The timer of the board that these are of; else the script's.
    whose: Option<usize>,
    lines: usize,
}

impl<S: Side> Play<S> {
    pub fn new(side: S) -> Self {
        Self {
            side,
            watchdog: None,
            doors: Doors::default(),
            log: Log::default(),
            items: Items::default(),
            recorded: None,
            whose: None,
            lines: 0,
        }
    }

    /// Answers the next line; nothing for one without words.
    pub fn answer(&mut self, line: &[u8]) -> Option<String> {
        self.lines += 1;
        match read_line(line) {
            Ok(None) => None,
            Ok(Some(command)) => Some(self.run(&command).unwrap_or_else(|why| self.unreadable(why))),
            Err(why) => Some(self.unreadable(why)),
        }
    }

    fn unreadable(&self, why: Why) -> String {
        format!("error line {}: {why}", self.lines)
    }

    fn run(&mut self, command: &Command) -> Read<String> {
        Ok(match command {
            Command::Config(config) => self.configure(config),
            Command::Call { call, cycle, area } => self.call(*call, *cycle, *area),
            Command::State => self.side.state().map_or(Answer::NoTimer.line(&[]), |s| s.to_string()),
            Command::Distance => self.side.distance().map_or(Answer::NoTimer.line(&[]), |d| d.to_string()),
            Command::Shift { first, second } => self.side.shift(*first, *second).line(&[]),
            Command::Pin(pin) => self.side.pin(pin).line(&[]),
            Command::Sched(sched) => self.side.sched(*sched).line(&[]),
            Command::Wdt(wdt) => self.wdt(*wdt),
            Command::Board(line) => self.board(*line),
            Command::Writes(line) => self.writes(line),
            Command::Item(item) => self.items.add(*item)?,
            Command::Door(line) => self.doors.answer(*line),
            Command::Log(line) => self.log.answer(*line),
            Command::Record(whose) => {
                self.recorded = Some(Vec::new());
                self.whose = *whose;
                "ok recording".into()
            }
        })
    }

    fn configure(&mut self, config: &Config) -> String {
        let answer = self.side.configure(config);
        if answer == Answer::Config {
            self.record_anew(None);
        }
        answer.line(&[])
    }

    fn call(&mut self, call: Call, cycle: u64, size: usize) -> String {
        let mut area = vec![FILL; size];
        let answer = self.side.call(call, cycle, &mut area);
        self.told(answer.line(&area), &area, answer.bytes())
    }

    /// 12 comes before all others, also where there is no timer.
    fn writes(&mut self, line: &WritesLine) -> String {
        if !line.of_tens() {
            return Answer::Refused(12).line(&[]);
        }
        if self.side.state().is_none() {
            return Answer::NoTimer.line(&[]);
        }
        let items = self.items.of(line);
        let mut area = vec![FILL; line.area];
        let (answer, bytes) = lists::work(&mut self.side, &items, &mut area);
        self.told(answer, &area, bytes)
    }

    /// The answer, unless the area changed beyond the bytes written; these are kept.
    fn told(&mut self, answer: String, area: &[u8], bytes: usize) -> String {
        if let Some(i) = area[bytes..].iter().position(|&b| b != FILL) {
            return format!("area changed at {}", bytes + i);
        }
        self.record(None, &area[..bytes]);
        answer
    }

    /// Keeps records where those of this timer are kept.
    fn record(&mut self, whose: Option<usize>, bytes: &[u8]) {
        if let Some(recorded) = self.recorded.as_mut().filter(|_| self.whose == whose) {
            recorded.extend(bytes);
        }
    }

    /// A fresh timer, or a fresh board.
    fn record_anew(&mut self, whose: Option<usize>) {
        if self.whose.is_some() == whose.is_some() {
            self.recorded.as_mut().map(Vec::clear);
        }
    }

    fn board(&mut self, line: BoardLine) -> String {
        let answer = match line {
            BoardLine::New => {
                self.side.new_board();
                self.record_anew(Some(0));
                Some(Answer::Config.line(&[]))
            }
            BoardLine::State => self.side.board_state().map(|board| board.to_string()),
            BoardLine::Call { order, cycle, area } => self.order(order, cycle, area),
        };
        answer.unwrap_or(Answer::NoTimer.line(&[]))
    }

    fn order(&mut self, order: Order, cycle: u64, size: usize) -> Option<String> {
        let mut areas = [(); 3].map(|()| vec![FILL; size]);
        let told = self.side.order(order, cycle, &mut areas)?;
        let changed = |i: usize| areas[i].iter().skip(told.bytes[i]).any(|&b| b != FILL);
        if (0..3).any(changed) {
            return Some("area changed".into());
        }
        (0..3).for_each(|i| self.record(Some(i), &areas[i][..told.bytes[i]]));
        Some(told.line(&areas))
    }

    fn wdt(&mut self, wdt: Wdt) -> String {
        if wdt == Wdt::New {
            self.watchdog = Some(Watchdog::default());
        }
        match &mut self.watchdog {
            Some(watchdog) => watchdog.answer(wdt, &mut vec![FILL; wdt.area()]),
            None => Answer::NoTimer.line(&[]),
        }
    }
}

/// The command of a line, or nothing where it has no words.
pub fn read_line(line: &[u8]) -> Result<Option<Command>, Why> {
    if line.len() > LONGEST {
        return Err(Why::LineTooLong);
    }
    let line = String::from_utf8_lossy(line);
    let said = line.split('#').next().unwrap_or_default();
    let words: Vec<&str> = said.split(' ').filter(|w| !w.is_empty()).collect();
    if words.is_empty() {
        return Ok(None);
    }
    Command::read(&words).map(Some)
}

/// Answers a whole script; yields what door.log is to hold.
pub fn answer_all(side: impl Side, script: impl BufRead, mut to: impl Write) -> io::Result<Option<Vec<u8>>> {
    let mut play = Play::new(side);
    for line in script.split(b'\n') {
        if let Some(answer) = play.answer(&line?) {
            writeln!(to, "{answer}")?;
        }
    }
    to.flush()?;
    Ok(play.recorded)
}

/// Answers standard input on standard output, and keeps door.log in the folder that it is started in.
pub fn serve(side: impl Side) -> io::Result<()> {
    let recorded = answer_all(side, io::stdin().lock(), io::BufWriter::new(io::stdout().lock()))?;
    recorded.map_or(Ok(()), |bytes| fs::write(RECORDED, bytes))
}
