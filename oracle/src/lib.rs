//! r9's own process code, unchanged, and what drives it by the steps of
//! docs/MACHINE.md.

extern crate alloc;
extern crate self as sys;

/// Prints a line in the kernel; the only one that can come is counted.
macro_rules! iprintln {
    ($($text:tt)*) => {{
        assert!(format!($($text)*).contains("probably stuck"), "an unexpected line");
        crate::host::STUCK.0.set(crate::host::STUCK.0.get() + 1);
    }};
}
pub(crate) use iprintln;

include!(concat!(env!("OUT_DIR"), "/port.rs"));

pub mod coverage;
mod dev;
pub mod driver;
pub mod generate;
mod guard;
pub mod host;
mod libc;
pub mod listing;
mod mcslock;
mod mem;
mod pagealloc;
pub mod parse;
pub mod perform;
pub mod places;
pub mod random;
pub mod sizes;
pub mod straight;
mod uaccess;

pub use libc::*;

/// What r9's functions return, with an error string.
pub type Result<T, E = &'static str> = core::result::Result<T, E>;
