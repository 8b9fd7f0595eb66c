//! The Rust under judgement: the unchanged files of GabePurc/MCS and, in `machine`, the little that
//! they use of the rest. The modules stand at the paths by which those files name each other.

include!(concat!(env!("OUT_DIR"), "/tree.rs"));

pub mod machine;

pub mod avr {
    pub use crate::machine;

    pub mod peripherals {
        pub use crate::{irqflags, timer};
    }
}

/// What was compiled: a file's path, how many of its bytes are the Rust's own, and all its bytes.
pub const SOURCES: [(&str, usize, &[u8]); 4] = include!(concat!(env!("OUT_DIR"), "/bytes.rs"));
