//! Numbers 2 to 7 of 01's table, the first that applies. Number 1 is in `rules`, 8 is known only after the
//! work, 9 and 10 belong to the pins and 11 to the scheduler.

use super::Held;
use crate::script::Call;

const LAST_CYCLE: u64 = (1 << 62) - 1;

pub fn number(held: &Held, call: Call, cycle: u64) -> Option<u8> {
    let late = late(held, cycle);
    if late.is_some() {
        late
    } else if foreign_address(held, call) {
        Some(4)
    } else if bad_level(call) {
        Some(5)
    } else if behind(held, call, cycle) {
        Some(6)
    } else if disturbs_sleep(held, call) {
        Some(7)
    } else {
        None
    }
}

/// 2 or 3, which are of the cycle alone.
pub fn late(held: &Held, cycle: u64) -> Option<u8> {
    if cycle > LAST_CYCLE {
        Some(2)
    } else if cycle < held.latest {
        Some(3)
    } else {
        None
    }
}

fn address(call: Call) -> Option<u16> {
    match call {
        Call::Read(addr) | Call::Peek(addr) | Call::Write(addr, _) => Some(addr),
        _ => None,
    }
}

fn foreign_address(held: &Held, call: Call) -> bool {
    address(call).is_some_and(|addr| !held.bench.timer.registers().contains(&(addr, 0)))
}

fn bad_level(call: Call) -> bool {
    match call {
        Call::Edge { level, .. } | Call::Route(level) | Call::AcOut(level) | Call::Tsm(level) => level > 1,
        Call::Sleep(mode) => mode > 7,
        _ => false,
    }
}

fn behind(held: &Held, call: Call, cycle: u64) -> bool {
    let exempt = match call {
        Call::Advance | Call::Reset => true,
        Call::Read(addr) | Call::Write(addr, _) => held.bench.timer.high_byte(addr),
        _ => false,
    };
    !exempt && held.bench.next_event().is_some_and(|next| next <= cycle)
}

fn disturbs_sleep(held: &Held, call: Call) -> bool {
    let t = held.bench.timer.inside();
    t.sleep_halted
        && match call {
            Call::Presc(mask) => mask & held.config.group != 0,
            Call::Tsm(level) => (level == 1) != t.tsm,
            Call::Sleep(mode) => mode != 0 && held.config.sleeprun & (1 << mode) == 0,
            _ => false,
        }
}
