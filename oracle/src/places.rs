//! What r9's own structures hold of processes, timers and exits, and where; and
//! the conditions and what kernel timers do, which are the driver's.  Read, nothing is changed.  Processes
//! are named by their pids; 0 is none.

use crate::clock;
use crate::dat::{KNAMELEN, Proc, Waitmsg};
use crate::host::{self, Host};
use crate::perform::parts;
use crate::timer::queue::{self, Queued};
use std::cell::Cell;
use std::collections::VecDeque;
use std::iter::successors;
use std::sync::Arc;

#[inline]
fn pid(p: *const ()) -> u64 {
    // SAFETY: it is null, or a living process in one of r9's structures.
    unsafe { p.cast::<Proc<Host>>().as_ref() }.map_or(0, |p| p.pid)
}

/// Who sleeps on a Rendez.
#[inline]
pub fn sleeper(r: usize) -> u64 {
    parts().rendez[r].sleeper.look(|&p| pid(p))
}

#[inline]
pub fn is_held(q: usize) -> bool {
    parts().locks[q].state.look(|state| state.locked)
}

/// The waiters for a lock, from the first.
#[inline]
pub fn waiters(q: usize) -> impl Iterator<Item = u64> {
    let head = parts().locks[q].state.look(|state| state.head.cast::<Proc<Host>>());
    // SAFETY: the waiters are alive.
    let of = |p: *mut Proc<Host>| unsafe { p.as_ref() };
    successors(of(head), move |p| of(p.qnext)).map(|p| p.pid)
}

#[inline]
pub fn conditions() -> impl Iterator<Item = bool> {
    parts().conditions.iter().map(Cell::get)
}

/// A timer: a kernel timer by its number, or the one of a process.
#[derive(Clone, Copy, PartialEq, Debug)]
pub enum Timer {
    Kernel(usize),
    Process(u64),
}

/// The timer queue from its head: each timer, and its deadline.
pub fn timers() -> impl Iterator<Item = (Timer, u64)> {
    queue::queued().map(|queued| (which(&queued), queued.when))
}

/// What a kernel timer other than the clock does: its period in counts, or 0
/// where it fires once, and the Rendez that it wakes.
pub fn kernel_timer(t: usize) -> (u64, u64) {
    let timer = &parts().timers[t];
    let period = match timer.mode.get() {
        (true, d) => clock::to_counts(d, host::HZ.0.get()),
        (false, _) => 0,
    };
    (period, timer.rendez.get() as u64)
}

/// A kernel timer's callback is passed its number, a process's its process.
fn which(&Queued { timer, arg, .. }: &Queued) -> Timer {
    let kernel = &parts().timers;
    match arg as usize {
        _ if queue::is_clock(timer) => Timer::Kernel(0),
        number if number < kernel.len() => {
            assert!(kernel[number].is(timer), "an old timer of number {number} is queued");
            Timer::Kernel(number)
        }
        _ => Timer::Process(pid(arg)),
    }
}

/// A living process.
pub struct Living(&'static Proc<Host>);

/// The living, oldest first.
pub fn living() -> impl Iterator<Item = Living> {
    // SAFETY: they are alive until the next step.
    let of = |&p: &*mut Proc<Host>| Living(unsafe { &*p });
    parts().living.borrow().iter().map(of).collect::<Vec<_>>().into_iter()
}

impl Living {
    #[inline]
    pub fn pid(&self) -> u64 {
        self.0.pid
    }

    #[inline]
    pub fn name(&self) -> &[u8; KNAMELEN] {
        &self.0.text
    }

    #[inline]
    pub fn quantum_end(&self) -> u64 {
        self.0.quantum_end
    }

    /// Its parent, one that has gone too.  r9 keeps the parent's wait queue, as
    /// long as the child lives; the driver, whose that is.
    #[inline]
    pub fn parent(&self) -> u64 {
        let whose = parts().wait_queues.borrow();
        self.0.parent.as_ref().map_or(0, |queue| whose[&Arc::as_ptr(queue)])
    }

    #[inline]
    pub fn has_living_parent(&self) -> bool {
        self.0.parent.as_ref().is_some_and(|queue| queue.state.look(|state| state.alive))
    }

    /// Whether it sleeps on its own waitr.
    #[inline]
    pub fn is_waiting(&self) -> bool {
        let sleeper = self.0.waitq.waitr.sleeper.look(|&p| pid(p));
        assert!(sleeper == 0 || sleeper == self.0.pid, "another sleeps on a waitr");
        sleeper != 0
    }

    #[inline]
    pub fn nchild(&self) -> usize {
        self.0.waitq.state.look(|state| state.nchild)
    }

    /// Look at its wait queue, newest first.
    #[inline]
    pub fn exits<T>(&self, look: impl FnOnce(&VecDeque<Waitmsg>) -> T) -> T {
        self.0.waitq.state.look(|state| look(&state.exits))
    }
}
