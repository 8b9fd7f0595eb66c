//! A log that gives its space back: up to 6,000 records in an area that the caller lends.

use crate::answer::Refusal;
use crate::record::RECORD;
use crate::{layout, raw};

/// A log of the records in an area of [`Ring::BYTES`] bytes, which its owner lends to each call. It can only be made by
/// [`Ring::new`] and changed by the calls, so the library's one premise, that it is valid, always holds.
///
/// ```
/// use paddlemauve::{Event, Record, Ring};
///
/// let mut area = vec![0; Ring::BYTES];
/// let mut ring = Ring::new();
/// let low = Record { cycle: 2048, event: Event::Pin { pin: 12, enable: true, value: false } };
/// assert_eq!(ring.add(&mut area, &low.bytes())?, 0, "the place that it took");
/// assert_eq!(ring.held(&area).map(Record::read).next(), Some(Ok(low)));
/// ring.release(&area, 1)?;
/// assert_eq!(ring.count(), 0);
/// # Ok::<(), paddlemauve::Refusal>(())
/// ```
#[derive(Clone, Debug, PartialEq, Eq)]
pub struct Ring {
    raw: raw::Ring,
}

impl Ring {
    /// How many records are held at most, and the bytes of the area that they lie in.
    pub const PLACES: usize = 6000;
    pub const BYTES: usize = Self::PLACES * RECORD;

    /// A log that holds no record.
    ///
    /// # Panics
    /// Where the library that was linked does not lay a log out as this crate does.
    #[allow(clippy::new_without_default)]
    pub fn new() -> Self {
        layout::check_ring();
        Self::start()
    }

    pub(crate) fn start() -> Self {
        // SAFETY: the function takes nothing, and layout::check_ring has found the library's layout to be ours.
        Self { raw: unsafe { raw::paddlemauve_log() } }
    }

    /// Adds a record's ten bytes; yields the place that it took.
    pub fn add(&mut self, area: &mut [u8], record: &[u8; RECORD]) -> Result<usize, Refusal> {
        let place = self.raw.next;
        // SAFETY: the log came from the library and only the library has changed it, so it is valid, here and below; the area
        // is lent for the call alone.
        self.keep(unsafe { raw::paddlemauve_log_add(self.raw, raw::Area::of(area), raw::Entry { bytes: *record }) })?;
        Ok(place)
    }

    /// Releases the oldest records, as many as are said.
    pub fn release(&mut self, area: &[u8], count: usize) -> Result<(), Refusal> {
        self.keep(unsafe { raw::paddlemauve_log_release(self.raw, raw::List::of(area), count) })
    }

    /// How many records are held.
    pub fn count(&self) -> usize {
        unsafe { raw::paddlemauve_log_count(self.raw) }
    }

    /// The place of the oldest record held; where none is held, that of the next.
    pub fn oldest(&self) -> usize {
        unsafe { raw::paddlemauve_log_oldest(self.raw) }
    }

    /// The records held, oldest first, out of the area that they were added to.
    ///
    /// # Panics
    /// Where the area has not [`Ring::BYTES`] bytes.
    pub fn held<'a>(&self, area: &'a [u8]) -> impl Iterator<Item = &'a [u8; RECORD]> {
        assert_eq!(area.len(), Self::BYTES, "the area of a log has {} bytes", Self::BYTES);
        let oldest = self.oldest();
        (0..self.count()).map(move |i| {
            let at = (oldest + i) % Self::PLACES * RECORD;
            area[at..at + RECORD].try_into().expect("ten bytes of the area")
        })
    }

    fn keep(&mut self, logged: raw::Logged) -> Result<(), Refusal> {
        self.raw = logged.ring;
        match logged.number {
            0 => Ok(()),
            number => Err(Refusal::of(number)),
        }
    }

    pub(crate) fn raw(&self) -> &raw::Ring {
        &self.raw
    }
}
