//! The unchanged Rust with the leanest machine around it: no scheduler, no `dyn`, and what it tells the machine written as
//! records of ten bytes into one area.

include!(concat!(env!("OUT_DIR"), "/tree.rs"));

pub mod machine;

pub mod avr {
    pub use crate::machine;

    pub mod peripherals {
        pub use crate::{irqflags, timer};
    }
}
