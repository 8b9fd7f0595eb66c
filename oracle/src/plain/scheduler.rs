//! Sixty-four places for events. A removed one's place is taken by the last; equal cycles pop by place.

use super::bends::Bend;
use crate::script::{Answer, Sched};

#[derive(Clone, Default)]
pub struct Scheduler {
    /// Owner, tag and cycle.
    places: Vec<(u8, u8, u64)>,
}

impl Scheduler {
    pub fn answer(&mut self, sched: Sched, bend: Option<Bend>) -> Answer {
        match sched {
            Sched::At(owner, tag, cycle) => return self.at(owner, tag, cycle, bend),
            Sched::Is(owner, tag) => return Answer::At(self.find(owner, tag).map(|place| self.places[place].2)),
            Sched::Pop(now) => return self.pop(now, bend),
            Sched::Clear => self.places.clear(),
            Sched::Cancel(owner, tag) => {
                if let Some(place) = self.find(owner, tag) {
                    self.remove(place, bend);
                }
            }
        }
        Answer::Next(self.next())
    }

    fn find(&self, owner: u8, tag: u8) -> Option<usize> {
        self.places.iter().position(|p| (p.0, p.1) == (owner, tag))
    }

    /// The earliest cycle; the Rust cannot tell the last cycle of all from none.
    fn next(&self) -> Option<u64> {
        self.places.iter().map(|p| p.2).min().filter(|&cycle| cycle < u64::MAX)
    }

    fn at(&mut self, owner: u8, tag: u8, cycle: u64, bend: Option<Bend>) -> Answer {
        let full = self.places.len() == 64;
        match self.find(owner, tag) {
            Some(_) if full && bend == Some(Bend::KnownKeyRefused) => return Answer::Refused(11),
            Some(place) => self.places[place].2 = cycle,
            None if full => return Answer::Refused(11),
            None => self.places.push((owner, tag, cycle)),
        }
        Answer::Next(self.next())
    }

    fn remove(&mut self, place: usize, bend: Option<Bend>) -> (u8, u8, u64) {
        if bend == Some(Bend::RemoveKeepsOrder) {
            return self.places.remove(place);
        }
        let last = self.places.pop().expect("a place that is held");
        match self.places.get_mut(place) {
            Some(held) => std::mem::replace(held, last),
            None => last,
        }
    }

    fn pop(&mut self, now: u64, bend: Option<Bend>) -> Answer {
        let Some(earliest) = self.places.iter().map(|p| p.2).min().filter(|&cycle| cycle <= now) else {
            return Answer::NothingDue;
        };
        let mut due = (0..self.places.len()).filter(|&place| self.places[place].2 == earliest);
        let place = if bend == Some(Bend::TieTakesLast) { due.next_back() } else { due.next() };
        let (owner, tag, at) = self.remove(place.expect("a place that is due"), bend);
        Answer::Popped { owner, tag, at, next: self.next() }
    }
}
