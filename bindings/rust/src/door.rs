//! A door held by a service rule; each edge takes it to the library by value and keeps what comes back.

use crate::answer::Refusal;
use crate::{layout, raw};

/// A door under rule one or rule two. It can only be made by [`Door::one`] and [`Door::two`] and changed by its edges, so the
/// library's one premise, that it is valid, always holds.
///
/// ```
/// use paddlemauve::Door;
///
/// // Rule two at 16 MHz: three seconds of hold, an edge rearms once a quarter of a second has passed, five seconds at most.
/// let mut door = Door::two(48_000_000, 4_000_000, 80_000_000)?;
/// assert_eq!(door.due(), None);
/// assert_eq!(door.edge(16_000_000)?, 64_000_000);
/// assert_eq!(door.edge(17_000_000)?, 64_000_000, "too soon after the last one to rearm");
/// assert_eq!(door.edge(60_000_000)?, 96_000_000, "the cap, from the first edge on");
/// assert_eq!(door.due(), Some(96_000_000));
/// # Ok::<(), paddlemauve::Refusal>(())
/// ```
#[derive(Clone, Debug, PartialEq, Eq)]
pub struct Door {
    raw: raw::Kept,
}

impl Door {
    /// Rule one: every edge rearms, and the close is due `hold` cycles after the last. With no edge yet nothing is due.
    ///
    /// # Panics
    /// Where the library that was linked does not lay a door out as this crate does.
    pub fn one(hold: u64) -> Result<Self, Refusal> {
        layout::check_door();
        // SAFETY: the function takes any number, and layout::check_door has found the library's layout to be ours.
        Self::made(unsafe { raw::paddlemauve_door_one(hold) })
    }

    /// Rule two: an edge rearms once `quiet` cycles have passed since the last that did, and the close is due at the earlier of
    /// that edge + `hold` and the first edge + `cap`. With no edge yet nothing is due.
    ///
    /// # Panics
    /// Where the library that was linked does not lay a door out as this crate does.
    pub fn two(hold: u64, quiet: u64, cap: u64) -> Result<Self, Refusal> {
        layout::check_door();
        Self::start_two(hold, quiet, cap)
    }

    pub(crate) fn start_two(hold: u64, quiet: u64, cap: u64) -> Result<Self, Refusal> {
        // SAFETY: the function takes any numbers, and layout::check_door has found the library's layout to be ours.
        Self::made(unsafe { raw::paddlemauve_door_two(hold, quiet, cap) })
    }

    /// A contact edge; yields when the close is due. The very first edge, and one at or after due, begins a new hold.
    pub fn edge(&mut self, cycle: u64) -> Result<u64, Refusal> {
        // SAFETY: the door came from the library and only the library has changed it, so it is valid.
        let told = unsafe { raw::paddlemauve_door_edge(self.raw, cycle) };
        self.raw = told.door;
        match told.number {
            0 => Ok(told.due),
            number => Err(Refusal::of(number)),
        }
    }

    /// When the close is due, or nothing before the first edge.
    pub fn due(&self) -> Option<u64> {
        self.raw.holding.then_some(self.raw.due)
    }

    /// The latest accepted edge, 0 before the first.
    pub fn latest(&self) -> u64 {
        self.raw.latest
    }

    fn made(told: raw::Told) -> Result<Self, Refusal> {
        match told.number {
            0 => Ok(Self { raw: told.door }),
            number => Err(Refusal::of(number)),
        }
    }

    pub(crate) fn raw(&self) -> &raw::Kept {
        &self.raw
    }
}
