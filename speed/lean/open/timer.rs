
// Appended for the measurement.

/// The tag of the timer's one event.
pub const EVENT: u8 = EV_TICK;
