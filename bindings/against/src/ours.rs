//! The bindings as a side of the oracle's scripts.

use oracle::script::{self, Answer, Distance, Event, State};
use paddlemauve::{Advanced, Answer as Told, Call, Capture, Clocks, Compare, Config, Layout, Next, Outcome, Refusal, Timer};

#[derive(Default)]
pub struct Ours {
    held: Option<(script::Config, Timer)>,
}

impl Ours {
    pub fn configure(&mut self, config: &script::Config) -> Answer {
        match Timer::new(&taken(config)) {
            Ok(timer) => {
                self.held = Some((config.clone(), timer));
                Answer::Config
            }
            Err(why) => Answer::Refused(why.number()),
        }
    }

    pub fn call(&mut self, call: script::Call, cycle: u64, area: &mut [u8]) -> Answer {
        let Some((_, timer)) = &mut self.held else {
            return Answer::NoTimer;
        };
        let (mut again, mut copy) = (timer.clone(), area.to_vec());
        let Outcome { answer, written: bytes, next } = timer.call(asked(call), cycle, area);
        if let Some(said) = by_name(&mut again, asked(call), cycle, &mut copy) {
            assert_eq!(said, (answer, bytes), "by its name the call answers otherwise");
            assert_eq!(again, *timer, "by its name the call leaves another timer");
            assert!(copy == area, "by its name the call leaves another area");
        }
        match answer {
            Told::Refused(_) => assert_eq!(next, None, "a refusal tells no event"),
            _ => self.check(next),
        }
        match answer {
            Told::Refused(why) => Answer::Refused(why.number()),
            Told::Paused(cycle, flags) => Answer::Paused { cycle, next: self.told(flags), bytes },
            Told::Value(value) => Answer::Done { value: Some(value), next: self.next(), bytes },
            Told::Next(next) => {
                assert_eq!(next.map(event), self.next(), "next answers what it answers again");
                Answer::Done { value: None, next: next.map(event), bytes }
            }
            Told::Reached(flags) => Answer::Done { value: None, next: self.told(flags), bytes },
            Told::Done => Answer::Done { value: None, next: self.next(), bytes },
        }
    }

    /// Every accepted reply tells the next event as the timer stands.
    fn check(&self, next: Option<Next>) {
        if let Some(Ok(asked)) = self.asked_next() {
            assert_eq!(next, asked, "a reply tells the event that next answers");
        }
    }

    /// The next event as the timer stands; none too where it is past.
    fn next(&self) -> Option<Event> {
        self.asked_next().and_then(|next| next.unwrap_or(None)).map(event)
    }

    /// The same after an advance, which answers the event's flags too.
    fn told(&self, flags: u8) -> Option<Event> {
        let next = self.next();
        assert!(
            self.event_due() || flags == next.map_or(0, |n| n.flags),
            "an advance answers the flags that next answers"
        );
        next
    }

    /// Whether the event is past, where `next` is refused.
    pub fn event_due(&self) -> bool {
        self.asked_next() == Some(Err(Refusal::EventDue))
    }

    fn asked_next(&self) -> Option<Result<Option<Next>, Refusal>> {
        self.held.as_ref().map(|(_, timer)| timer.clone().next(timer.state().latest))
    }

    pub fn distance(&self) -> Option<Distance> {
        self.held.as_ref().map(|(_, timer)| {
            let paddlemauve::Distance { ticks, flags, looked } = timer.distance();
            Distance { ticks: ticks.into(), flags, looked }
        })
    }

    pub fn shift(&self, first: u64, second: u64) -> Answer {
        match self.held.as_ref().map(|(_, timer)| timer.shift(first, second)) {
            None => Answer::NoTimer,
            Some(Ok(ticks)) => Answer::Shift(ticks.into()),
            Some(Err(why)) => Answer::Refused(why.number()),
        }
    }

    pub fn state(&self) -> Option<State> {
        self.held.as_ref().map(|(config, timer)| shown(config, &timer.state()))
    }
}

/// The same call by the method of its name, where the library has an export of its own for it.
fn by_name(timer: &mut Timer, call: Call, cycle: u64, area: &mut [u8]) -> Option<(Told, usize)> {
    let byte = |read: Result<u8, Refusal>| read.map(|value| (Told::Value(value), 0));
    let said = match call {
        Call::Advance => timer.advance(cycle, area).map(|ended| match ended {
            Advanced::Done { written, flags } => (Told::Reached(flags), written),
            Advanced::Paused { sync, written, flags } => (Told::Paused(sync, flags), written),
        }),
        Call::Next => timer.next(cycle).map(|next| (Told::Next(next), 0)),
        Call::Read(address) => byte(timer.read(address, cycle)),
        Call::Tifr => byte(timer.tifr(cycle)),
        Call::WriteTifr(ones) => timer.write_tifr(ones, cycle).map(|()| (Told::Done, 0)),
        _ => return None,
    };
    Some(said.unwrap_or_else(|why| (Told::Refused(why), 0)))
}

fn event(next: Next) -> Event {
    Event { cycle: next.cycle, flags: next.flags }
}

/// A configuration of the script as the bindings'.
fn taken(c: &script::Config) -> Config {
    let unit = |address: Option<u16>, flag, force, pin| Compare {
        present: address.is_some(),
        address: address.unwrap_or(0),
        flag,
        force,
        pin,
    };
    Config {
        id: c.id,
        wide: c.wide,
        layout: match c.layout {
            script::Layout::Split => Layout::Split,
            script::Layout::Single => Layout::Single,
            script::Layout::Single0 => Layout::Bare,
        },
        tccra: c.tccra,
        tccrb: c.tccrb,
        foc: c.foc,
        tcnt: c.tcnt,
        a: unit(c.ocra, c.ocfa, c.foca, c.pina),
        b: unit(c.ocrb, c.ocfb, c.focb, c.pinb),
        c: c.c.map_or(Compare::ABSENT, |u| Compare::at(u.ocr, u.flag, u.force, u.pin)),
        icr: Capture { present: c.icr.is_some(), address: c.icr.unwrap_or(0), flag: c.icf, pin: c.icp },
        tov: c.tov,
        t: c.t,
        clocks: if c.clock == script::ClockTable::Sync { Clocks::Sync } else { Clocks::Timer2 },
        group: c.group,
        prr: c.prr,
        sleeprun: c.sleeprun,
    }
}

fn asked(call: script::Call) -> Call {
    match call {
        script::Call::Advance => Call::Advance,
        script::Call::Next => Call::Next,
        script::Call::Reset => Call::Reset,
        script::Call::Wake => Call::Wake,
        script::Call::Read(address) => Call::Read(address),
        script::Call::Peek(address) => Call::Peek(address),
        script::Call::Write(address, value) => Call::Write(address, value),
        script::Call::Tifr => Call::Tifr,
        script::Call::Timsk => Call::Timsk,
        script::Call::WriteTifr(ones) => Call::WriteTifr(ones),
        script::Call::WriteTimsk(mask) => Call::WriteTimsk(mask),
        script::Call::Edge { pin, level } => Call::Edge { pin, level },
        script::Call::Route(level) => Call::Route(level),
        script::Call::AcOut(level) => Call::Output(level),
        script::Call::Sleep(mode) => Call::Sleep(mode),
        script::Call::Prr(mask) => Call::Reduce(mask),
        script::Call::Tsm(level) => Call::Tsm(level),
        script::Call::Presc(mask) => Call::Prescale(mask),
    }
}

/// The state as a script shows it: compares that are there, drives of channels with a pin, and the request lines.
fn shown(config: &script::Config, t: &paddlemauve::State) -> State {
    let c = config.c;
    let present = [config.ocra.is_some(), config.ocrb.is_some(), c.is_some()];
    let pins = [config.pina, config.pinb, c.and_then(|c| c.pin)];
    let values = |values: [u32; 3]| [0, 1, 2].map(|ch| present[ch].then_some(values[ch]));
    let flags = [config.tov, config.ocfa, config.ocfb, config.icf, c.map_or(0, |c| c.flag)];
    State {
        count: t.count,
        dir: t.direction,
        ocr: values(t.ocr),
        buf: values(t.buffer),
        icr: t.icr,
        temp: t.temp,
        oc: t.oc,
        drive: [0, 1, 2].map(|ch| pins[ch].map(|_| t.drives[ch])),
        block: t.blocked,
        tccra: t.tccra,
        tccrb: t.tccrb,
        tifr: t.tifr,
        timsk: t.timsk,
        lines: flags.map(|flag| t.tifr & t.timsk & flag != 0),
        sync: t.sync,
        origin: t.origin,
        asleep: t.asleep,
        prr: t.reduced,
        tsm: t.tsm,
        route: t.routed,
        latest: t.latest,
        odometer: Some(t.odometer),
    }
}
