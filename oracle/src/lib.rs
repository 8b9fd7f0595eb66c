//! The Rust as judge: one script, answered by the unchanged Rust and by a plain counter, and compared.

pub mod compare;
pub mod door;
pub mod generate;
pub mod judge;
pub mod lists;
pub mod log;
pub mod plain;
pub mod script;
pub mod watchdog;
