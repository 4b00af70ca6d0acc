//! r9's timer queue, read.  A module of its timer.rs, to which the queue is
//! private.

use super::{HZCLOCK, Timer, timer, timers};
use crate::mcslock::LockNode;
use std::iter::successors;

/// A timer in the queue.
pub struct Queued {
    pub timer: *const Timer,
    /// What its callback is passed.
    pub arg: *mut (),
    pub when: u64,
}

/// The queue, from its head.
pub fn queued() -> impl Iterator<Item = Queued> {
    let head = timers().ilock(&LockNode::new()).head.get();
    let entry = |t: &Timer| Queued { timer: t, arg: t.arg, when: t.when.get() };
    successors(timer(head), |t| timer(t.next.get())).map(entry)
}

/// Whether it is the HZ clock.
pub fn is_clock(t: *const Timer) -> bool {
    std::ptr::eq(t, &HZCLOCK)
}
