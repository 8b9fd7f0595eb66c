//! Doors against 02's words, read over the whole list of edges anew after each.

mod random;

use paddlemauve::{Door, Refusal};
use random::Rng;

const LONGEST: u64 = 1 << 40;
const LAST_CYCLE: u64 = (1 << 62) - 1;

/// A rule's hold, and under rule two quiet and cap.
#[derive(Clone, Copy, Debug)]
struct Rule {
    hold: u64,
    two: Option<(u64, u64)>,
}

impl Rule {
    fn set(self) -> Result<Door, Refusal> {
        match self.two {
            None => Door::one(self.hold),
            Some((quiet, cap)) => Door::two(self.hold, quiet, cap),
        }
    }

    fn accepted(self) -> bool {
        let whole = |cycles: u64| cycles != 0 && cycles <= LONGEST;
        whole(self.hold) && self.two.is_none_or(|(quiet, cap)| whole(quiet) && whole(cap) && cap >= self.hold)
    }

    /// When the close is due after the edges accepted so far.
    fn due(self, edges: &[u64]) -> Option<u64> {
        let mut hold: Option<(u64, u64, u64)> = None;
        for &edge in edges {
            hold = Some(match hold {
                Some((first, rearmed, due)) if edge < due => {
                    let rearms = self.two.is_none_or(|(quiet, _)| edge - rearmed >= quiet);
                    let rearmed = if rearms { edge } else { rearmed };
                    (first, rearmed, self.close(first, rearmed))
                }
                _ => (edge, edge, self.close(edge, edge)),
            });
        }
        hold.map(|(_, _, due)| due)
    }

    fn close(self, first: u64, rearmed: u64) -> u64 {
        let held = rearmed + self.hold;
        self.two.map_or(held, |(_, cap)| held.min(first + cap))
    }
}

fn rule(rng: &mut Rng) -> Rule {
    let most = rng.pick(&[4, 20, 1000, LONGEST]);
    let mut cycles = || match rng.below(40) {
        0 => 0,
        1 => LONGEST,
        2 => LONGEST + 1,
        3 => u64::MAX,
        _ => 1 + rng.below(most),
    };
    let (hold, quiet, cap) = (cycles(), cycles(), cycles());
    // Most caps are no shorter than the hold.
    let cap = if rng.below(8) == 0 { cap } else { cap.saturating_add(hold) };
    Rule { hold, two: (rng.below(3) != 0).then_some((quiet, cap)) }
}

#[test]
fn doors_keep_their_rule() {
    let mut rng = Rng(1);
    let (mut set, mut taken, mut refused) = (0, 0, 0);
    for _ in 0..20_000 {
        let rule = rule(&mut rng);
        let Ok(mut door) = rule.set() else {
            assert_eq!(rule.set(), Err(Refusal::Rule));
            assert!(!rule.accepted(), "{rule:?}");
            continue;
        };
        assert!(rule.accepted(), "{rule:?}");
        set += 1;
        let mut edges: Vec<u64> = Vec::new();
        for _ in 0..rng.below(20) {
            let latest = edges.last().copied().unwrap_or(0);
            let due = door.due().unwrap_or(0);
            let some = rng.below(rule.hold + 2);
            let cycle = match rng.below(20) {
                0 => latest.saturating_sub(1),
                1 => rng.pick(&[LAST_CYCLE, LAST_CYCLE + 1, u64::MAX]),
                2..=5 => due.saturating_sub(1) + rng.below(3),
                6..=9 => latest + rule.two.map_or(0, |(quiet, _)| quiet) + rng.below(3) - 1,
                _ => latest + some,
            };
            let before = door.clone();
            let answer = door.edge(cycle);
            if cycle > LAST_CYCLE || cycle < latest {
                let why = if cycle > LAST_CYCLE { Refusal::CycleTooLarge } else { Refusal::CyclePassed };
                assert_eq!((answer, &door), (Err(why), &before));
                refused += 1;
                continue;
            }
            edges.push(cycle);
            taken += 1;
            assert_eq!(answer.ok(), rule.due(&edges), "{rule:?} {edges:?}");
            assert_eq!((door.due(), door.latest()), (rule.due(&edges), cycle));
        }
    }
    println!("{set} doors, {taken} edges, {refused} refused");
    assert!(set > 10_000 && taken > 50_000 && refused > 3_000);
}
