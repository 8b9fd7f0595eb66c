//! Lines that ask how far a late edge moves the capture: around ticks, around 32,767 of them, and cycles that are refused.

use super::cycles::LAST_CYCLE;
use super::Generator;

impl Generator {
    pub fn shift(&mut self) {
        let rng = &mut self.aside;
        let (latest, divisor) = self.play.side.view().map_or((0, 0), |v| (v.latest, v.inside.divisor));
        let tick = divisor.max(1);
        let most = 32_767 * tick;
        let some = rng.below(400 * tick);
        let whole = rng.below(20) * tick;
        let border = most - 2 + rng.below(4);
        let far = rng.below(1 << 40);
        let apart = rng.weighted(&[(30, some % (3 * tick)), (30, some), (20, whole), (15, border), (5, far)]);
        let first = (latest + rng.below(3 * tick)).min(LAST_CYCLE);
        let second = (first + apart).min(LAST_CYCLE);
        let mut edges = if rng.percent(50) { [first, second] } else { [second, first] };
        let out = [latest.saturating_sub(1), LAST_CYCLE + 1, u64::MAX];
        if rng.percent(5) {
            edges = [rng.pick(&out), rng.pick(&[edges[1], out[0], out[1]])];
        } else if rng.percent(3) {
            edges[1] = rng.pick(&out);
        }
        self.say(format!("shift {} {}", edges[0], edges[1]));
    }
}
