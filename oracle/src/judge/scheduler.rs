//! The `sched` lines, answered by the Rust's `Scheduler` behind refusal 11.

use mcs::scheduler::{EventKey, Scheduler};

use crate::script::{Answer, Sched};

const PLACES: usize = 64;

pub fn answer(scheduler: &mut Scheduler, sched: Sched) -> Answer {
    match sched {
        Sched::At(owner, tag, cycle) => {
            let key = EventKey { owner, tag };
            if scheduler.is_scheduled(key).is_none() && scheduler.held() == PLACES {
                return Answer::Refused(11);
            }
            scheduler.at(key, cycle);
        }
        Sched::Cancel(owner, tag) => scheduler.cancel(EventKey { owner, tag }),
        Sched::Clear => scheduler.clear(),
        Sched::Is(owner, tag) => return Answer::At(scheduler.is_scheduled(EventKey { owner, tag })),
        Sched::Pop(now) => {
            return match scheduler.pop_due(now) {
                Some((key, at)) => Answer::Popped { owner: key.owner, tag: key.tag, at, next: next(scheduler) },
                None => Answer::NothingDue,
            };
        }
    }
    Answer::Next(next(scheduler))
}

/// The Rust says `u64::MAX` for none, and so for an event at that cycle.
fn next(scheduler: &Scheduler) -> Option<u64> {
    (scheduler.next != u64::MAX).then_some(scheduler.next)
}
