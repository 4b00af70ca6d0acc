//! r9's next pid, read.  A module of its proc.rs, to which it is private.

use super::{NEXT_PID, Ordering};

pub fn next() -> u64 {
    NEXT_PID.load(Ordering::Relaxed)
}
