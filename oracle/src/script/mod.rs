//! The bench script: what a line says, what is answered, and the play that keeps both together. It is
//! the only part that the judge and the plain counter share, and it knows nothing of how a timer works.

pub mod answer;
pub mod board;
pub mod command;
pub mod config;
pub mod pin;
pub mod play;
pub mod presets;
pub mod words;

pub use answer::{Answer, Distance, Event, State};
pub use board::{Areas, BoardLine, BoardState, Order, Told};
pub use command::{Call, Command, Sched};
pub use config::{ClockTable, CompareC, Config, Layout};
pub use pin::{Ext, PinLine};
pub use play::{Play, Side};
