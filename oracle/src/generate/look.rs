//! What the generator sees of the state.

use crate::dat::{Proc, ProcArch};
use crate::driver::Call;
use crate::host::Host;
use crate::mcslock::LockNode;
use crate::perform::parts;

pub fn up() -> Option<&'static Proc<Host>> {
    // SAFETY: up is null or the running process.
    unsafe { Host::up().as_ref() }
}

pub fn running() -> bool {
    up().is_some()
}

/// The running process's living children and the exits it may wait for.
pub fn family() -> usize {
    up().map_or(0, |p| {
        let node = LockNode::new();
        let state = p.waitq.state.ilock(&node);
        state.nchild + state.exits.len()
    })
}

/// Whether the running process has a living parent.
pub fn tells_parent() -> bool {
    let parent = up().and_then(|p| p.parent.as_ref());
    parent.is_some_and(|parent| parent.state.ilock(&LockNode::new()).alive)
}

/// The Rendez where someone sleeps.
pub fn sleepers() -> Vec<usize> {
    let asleep = |r: &usize| !parts().rendez[*r].sleeper.look(|p| p.is_null());
    (0..parts().rendez.len()).filter(asleep).collect()
}

/// The locks whose state passes the test.
pub fn locks(test: impl Fn(&crate::dat::QState) -> bool) -> Vec<usize> {
    let passes = |q: &usize| parts().locks[*q].state.look(&test);
    (0..parts().locks.len()).filter(passes).collect()
}

pub fn rendez_of(call: &Call) -> Option<usize> {
    match *call {
        Call::Sleep { r, .. } | Call::Tsleep { r, .. } => Some(r),
        _ => None,
    }
}

pub fn condition_of(call: &Call) -> Option<usize> {
    match *call {
        Call::Sleep { c, .. } | Call::Tsleep { c, .. } => Some(c),
        _ => None,
    }
}
