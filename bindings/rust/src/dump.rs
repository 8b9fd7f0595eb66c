//! A record log as a value change dump, for a waveform viewer.

use crate::answer::Refusal;
use crate::raw;
use crate::record::RECORD;

/// The bytes that hold the dump of any log of so many bytes: its header, 32 for each record, and 32 more.
pub const fn dump_room(log: usize) -> usize {
    6954 + 32 * (log / RECORD + 1)
}

/// Puts the dump of a log into an area; yields the bytes written from its start, or nothing where it has fewer than
/// [`dump_room`] bytes. A refused log, and an area that is too short, leave the area as it was.
pub fn dump_into(log: &[u8], out: &mut [u8]) -> Result<Option<usize>, Refusal> {
    // SAFETY: the function takes any bytes; log and area are lent for the call alone.
    let dumped = unsafe { raw::paddlemauve_dump(raw::List::of(log), raw::Area::of(out)) };
    match dumped.number {
        0 => Ok((!dumped.short).then_some(dumped.written as usize)),
        number => Err(Refusal::of(number)),
    }
}

/// The dump of a log of records, in the order of their cycles.
///
/// ```
/// use paddlemauve::{dump, Event, Record, Refusal};
///
/// let log = Record { cycle: 2, event: Event::Pin { pin: 5, enable: true, value: true } }.bytes();
/// let text = "$timescale 1 ps $end\n$var wire 1 p5 p5 $end\n$enddefinitions $end\n#125000\n1p5\n";
/// assert_eq!(dump(&log)?, text.as_bytes());
/// assert_eq!(dump(&log[..9]), Err(Refusal::Record));
/// # Ok::<(), Refusal>(())
/// ```
pub fn dump(log: &[u8]) -> Result<Vec<u8>, Refusal> {
    let mut out = vec![0; dump_room(log.len())];
    let written = dump_into(log, &mut out)?.expect("dump_room holds any dump");
    out.truncate(written);
    Ok(out)
}
