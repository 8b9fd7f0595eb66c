//! The proved AVR bench timer, the ATmega328P board of three such timers, the watchdog, the door rules, the log and its dump, held and called from Rust.
//!
//! The work is that of the static libraries of the crates `shell` and `doorlog`, every function of which is proved to meet its contract. This
//! crate declares its types again, and is all that is not proved between that contract and a caller: it turns arguments
//! into numbers and answers into enums, and checks once, when the first timer or board is made, that both sides lay the
//! types out alike.
//!
//! ```
//! use paddlemauve::{records, Advanced, Config, Next, Timer};
//!
//! let mut area = [0; 110];
//! let mut timer = Timer::new(&Config::M328P_TIMER0)?;
//! timer.write(0x45, 0x01, 0, &mut area)?;
//! assert_eq!(timer.next(0)?, Some(Next { cycle: 1, flags: 0x06 }));
//! let Advanced::Done { written, .. } = timer.advance(1, &mut area)? else { panic!("110 bytes hold an event") };
//! assert_eq!(records(&area[..written]).count(), 3);
//! assert_eq!(timer.read(0x46, 1)?, 1);
//! # Ok::<(), paddlemauve::Refusal>(())
//! ```

mod answer;
mod board;
mod config;
mod door;
mod dump;
mod layout;
mod list;
mod raw;
mod record;
mod ring;
mod timer;
mod watchdog;

pub use answer::{Answer, Call, Next, Outcome, Refusal};
pub use board::{Board, BoardOutcome, Id, Order};
pub use config::{Capture, Clocks, Compare, Config, Layout};
pub use door::Door;
pub use dump::{dump, dump_into, dump_room};
pub use list::{Why, Write, Written};
pub use record::{records, Event, Record, EVENT, RECORD};
pub use ring::Ring;
pub use timer::{Advanced, Distance, State, Timer};
pub use watchdog::{Watchdog, WatchdogAdvanced, WatchdogState};
