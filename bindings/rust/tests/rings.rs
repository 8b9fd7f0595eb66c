//! A log against a queue, and its area against a copy that is written place by place.

mod random;

use std::collections::VecDeque;

use paddlemauve::{Refusal, Ring, RECORD};
use random::Rng;

/// The plain log: the records held, and how many were added in all.
struct Plain {
    held: VecDeque<[u8; RECORD]>,
    added: usize,
    area: Vec<u8>,
}

impl Plain {
    fn add(&mut self, record: [u8; RECORD]) -> Result<usize, Refusal> {
        if self.held.len() == 6000 {
            return Err(Refusal::LogFull);
        }
        let place = self.added % 6000;
        self.area[10 * place..10 * place + 10].copy_from_slice(&record);
        self.held.push_back(record);
        self.added += 1;
        Ok(place)
    }

    fn release(&mut self, count: usize) -> Result<(), Refusal> {
        if count > self.held.len() {
            return Err(Refusal::NotHeld);
        }
        self.held.drain(..count);
        Ok(())
    }
}

#[test]
fn a_ring_is_a_queue() {
    let mut rng = Rng(1);
    let mut area = vec![0xa5; Ring::BYTES];
    let mut ring = Ring::new();
    let mut plain = Plain { held: VecDeque::new(), added: 0, area: area.clone() };
    let (mut full, mut unheld) = (0, 0);
    for turn in 0..400 {
        // Now it fills, now it empties.
        let adds = rng.pick(&[0, 1, 10, 2500]);
        for _ in 0..adds {
            let record = [0; RECORD].map(|_: u8| rng.below(256) as u8);
            let answer = ring.add(&mut area, &record);
            full += answer.is_err() as usize;
            assert_eq!(answer, plain.add(record));
        }
        let held = plain.held.len() as u64;
        let count = match rng.below(8) {
            0 => held as usize,
            1 => held as usize + 1,
            2 => usize::MAX,
            3 => 0,
            _ => rng.below(held.min(900) + 1) as usize,
        };
        if turn % 3 != 0 {
            let answer = ring.release(&area, count);
            unheld += answer.is_err() as usize;
            assert_eq!(answer, plain.release(count));
        }
        assert_eq!(ring.count(), plain.held.len());
        assert_eq!(ring.oldest(), (plain.added - plain.held.len()) % 6000);
        assert!(ring.held(&area).eq(&plain.held));
        assert!(area == plain.area);
    }
    println!("{} added, {full} refused while full, {unheld} releases refused", plain.added);
    assert!(plain.added > 60_000 && full > 1_000 && unheld > 50);
}

#[test]
fn a_full_ring_takes_no_more() {
    let mut area = vec![0; Ring::BYTES];
    let mut ring = Ring::new();
    for place in 0..Ring::PLACES {
        assert_eq!(ring.add(&mut area, &[7; RECORD]), Ok(place));
    }
    let before = (ring.clone(), area.clone());
    assert_eq!(ring.add(&mut area, &[8; RECORD]), Err(Refusal::LogFull));
    assert_eq!((ring.clone(), area.clone()), before);
    ring.release(&area, 1).expect("one is held");
    assert_eq!(ring.add(&mut area, &[8; RECORD]), Ok(0));
    assert_eq!(area[..11], [8, 8, 8, 8, 8, 8, 8, 8, 8, 8, 7]);
}

#[test]
fn an_area_has_60_000_bytes() {
    let mut ring = Ring::new();
    for size in [0, Ring::BYTES - 1, Ring::BYTES + 1] {
        let mut area = vec![0xa5; size];
        assert_eq!(ring.add(&mut area, &[1; RECORD]), Err(Refusal::LogArea));
        assert_eq!(ring.release(&area, 1), Err(Refusal::LogArea), "tested before 20");
        assert!(area.iter().all(|&b| b == 0xa5));
    }
    assert_eq!(ring, Ring::new());
}
