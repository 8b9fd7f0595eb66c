//! Register values: counts around what matters, control bytes with a mode and a clock.

use super::rng::Rng;
use crate::judge::View;
use crate::script::Layout;

/// A count around TOP, MAX, a compare, the count itself or 0; often a small one.
pub fn count(rng: &mut Rng, view: &View) -> u32 {
    let t = &view.inside;
    let place = rng.pick(&[t.tcnt, t.top, t.max, 0, t.ocr[0], t.ocr[1], t.ocr[2], t.ocr_buf[0], t.ocr_buf[1], t.icr]);
    let near = place.wrapping_add(rng.below(3) as u32).wrapping_sub(1) & t.max;
    let small = rng.below(8) as u32;
    let low = rng.below(40) as u32;
    let any = rng.next() as u32 & t.max;
    rng.weighted(&[(50, near), (25, small), (15, low), (10, any)])
}

fn clock(rng: &mut Rng) -> u8 {
    rng.weighted(&[(45, 1), (15, 2), (8, 3), (4, 4), (4, 5), (6, 0), (9, 6), (9, 7)])
}

/// Control bytes A and B for any mode; of a single layout only the first counts.
pub fn controls(rng: &mut Rng, view: &View) -> (u8, u8) {
    let mode = rng.below(if view.config.wide { 16 } else { 8 }) as u8;
    let com = rng.byte() & rng.pick(&[0xfc, 0xfc, 0xf0, 0]);
    let noise = rng.byte() & rng.pick(&[0xe0, 0x40, 0x40, 0]);
    if view.config.layout == Layout::Split {
        return (com | mode & 3, noise | mode >> 2 << 3 | clock(rng));
    }
    let single = (rng.byte() & 0xf8) | clock(rng);
    (single, single)
}
