//! Lists of writes against the single calls.

use paddlemauve::{Advanced, Config, Refusal, Timer, Why, Write, Written};

fn timer0() -> Timer {
    Timer::new(&Config::M328P_TIMER0).expect("the preset is accepted")
}

fn at(cycle: u64, address: u16, value: u8) -> Write {
    Write { address, value, cycle }
}

/// The list by single calls, each in what is left of the area.
fn singly(timer: &mut Timer, list: &[Write], area: &mut [u8]) -> Written {
    let mut written = 0;
    for (done, w) in list.iter().enumerate() {
        match timer.advance(w.cycle, &mut area[written..]) {
            Ok(Advanced::Done { written: more, .. }) => written += more,
            Ok(Advanced::Paused { sync, written: more, .. }) => {
                return Written { done, written: written + more, why: Why::Paused(sync) };
            }
            Err(why) => return Written { done, written, why: Why::Refused(why) },
        }
        match timer.write(w.address, w.value, w.cycle, &mut area[written..]) {
            Ok(more) => written += more,
            Err(why) => return Written { done, written, why: Why::Refused(why) },
        }
    }
    Written { done: list.len(), written, why: Why::AllDone }
}

fn alike(list: &[Write], size: usize) -> Written {
    let (mut one, mut other) = (timer0(), timer0());
    let (mut area, mut bytes) = (vec![0xa5; size], vec![0xa5; size]);
    let written = one.writes(list, &mut area);
    assert_eq!(written, singly(&mut other, list, &mut bytes));
    assert_eq!(area, bytes);
    assert_eq!(one, other);
    written
}

#[test]
fn lists_are_single_calls() {
    let list = [at(0, 0x47, 191), at(0, 0x44, 0x83), at(0, 0x45, 0x02), at(5000, 0x47, 63), at(1 << 20, 0x45, 0)];
    assert_eq!(alike(&list, 1 << 16).why, Why::AllDone);
    assert!(matches!(alike(&list, 200).why, Why::Paused(_)));
    assert_eq!(alike(&[], 0), Written { done: 0, written: 0, why: Why::AllDone });
}

#[test]
fn a_list_ends_where_a_call_is_turned_away() {
    let refused =
        |list: &[Write], done, why| assert_eq!(alike(list, 110), Written { done, written: 0, why: Why::Refused(why) });
    refused(&[at(10, 0x47, 1), at(9, 0x47, 1)], 1, Refusal::CyclePassed);
    refused(&[at(0, 0x48, 1), at(0, 0x1ff, 1)], 1, Refusal::Address);
    refused(&[at(0, 0x48, 1), at(1 << 62, 0x48, 1), at(0, 0x48, 1)], 1, Refusal::CycleTooLarge);
}

/// An item has ten bits for the address and 62 for the cycle: what is larger is not cut to the register and the cycle of its low bits.
#[test]
fn a_write_that_no_item_has_room_for() {
    let runs = [at(0, 0x47, 200), at(0, 0x45, 0x01)];
    for address in [0x400, 0x447, 0xffff] {
        let list = [runs[0], runs[1], at(300, address, 9), at(300, 0x47, 9)];
        let ended = alike(&list, 110);
        assert_eq!((ended.done, ended.why), (2, Why::Refused(Refusal::Address)));
        assert!(ended.written > 0, "its advance stands");
        assert!(matches!(alike(&list, 9), Written { done: 2, written: 0, why: Why::Paused(_) }));
    }
    for cycle in [1 << 62, (1 << 62) + 300, u64::MAX] {
        let list = [runs[0], runs[1], at(cycle, 0x47, 9), at(300, 0x47, 9)];
        assert_eq!(alike(&list, 110), Written { done: 2, written: 0, why: Why::Refused(Refusal::CycleTooLarge) });
    }
    let last = [at((1 << 62) - 1, 0x3ff, 0xff)];
    assert_eq!(alike(&last, 110).why, Why::Refused(Refusal::Address));
}
