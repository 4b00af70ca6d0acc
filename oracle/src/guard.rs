//! Those of docs/MACHINE.md, "Refusals", that r9 does not know, or asserts on.
//! They are decided before the step, from r9's structures, and the step is
//! then not given to r9.  Numbers 10, 11, 14 and 15 are r9's own errors.

use crate::clock;
use crate::dat::{MAXWAIT, Proc, ProcArch};
use crate::driver::{Call, Driver, queued};
use crate::host::Host;
use crate::libc::*;
use crate::mcslock::LockNode;
use crate::parse::Step;
use crate::perform::parts;
use std::time::Duration;

/// "Order of refusals", without the numbers that no step of a list meets
/// (1, 14, 16), that the line's reader gives (2), or that are r9's and come
/// last (11, 15).
const ORDER: [u32; 10] = [3, 17, 10, 4, 7, 8, 9, 5, 6, 12];
/// The same for `sleep` alone.
const ORDER_OF_SLEEP: [u32; 3] = [3, 5, 4];

const MIN_PERIOD: Duration = Duration::from_micros(100);
const LAST_READING: u64 = (1 << 51) - 1;
const MOST_COUNTS: u64 = (1 << 63) - 1;

/// The number that refuses the step before r9 sees it.
pub fn refusal(driver: &Driver, marked: bool, step: &Step) -> Option<u32> {
    let order: &[u32] = if matches!(step, Step::Sleep { .. }) { &ORDER_OF_SLEEP } else { &ORDER };
    let first = order.iter().copied().find(|&number| met(driver, marked, step, number));
    match first {
        // r9's rfork tests the flags before it looks at the process, so the
        // answer is left to it.
        Some(10) => None,
        Some(number) => Some(number),
        None => no_cell(driver, step).then_some(13),
    }
}

fn met(driver: &Driver, marked: bool, step: &Step, number: u32) -> bool {
    match number {
        3 => marked && not_in_interrupt(step),
        17 => *step == Step::Sched && running().is_some(),
        10 => matches!(step, Step::Rfork { flags, .. } if bad_flags(*flags)),
        4 => running().is_none() && needs_process(step),
        7 => too_short(step),
        8 => now_of(step).is_some_and(|now| now < driver.last_now || now > LAST_READING),
        9 => duration_of(step).is_some_and(|d| clock::to_counts(d, driver.sizes.hz) > MOST_COUNTS),
        5 => another_asleep(driver, step),
        6 => matches!(step, Step::Qunlock { q } if !held(*q)),
        12 => makes_process(step) && parts().living.borrow().len() >= driver.sizes.processes,
        _ => unreachable!("a number outside the order"),
    }
}

fn running() -> Option<&'static Proc<Host>> {
    // SAFETY: up is null or the running process.
    unsafe { Host::up().as_ref() }
}

fn held(q: usize) -> bool {
    parts().locks[q].state.ilock(&LockNode::new()).locked
}

fn asleep_on(r: usize) -> bool {
    !parts().rendez[r].sleeper.ilock(&LockNode::new()).is_null()
}

fn condition(c: usize) -> bool {
    parts().conditions[c].get()
}

fn not_in_interrupt(step: &Step) -> bool {
    match step {
        Step::Start { .. } | Step::Rfork { .. } | Step::Name(_) | Step::Sched | Step::Yield => true,
        Step::Sleep { .. } | Step::Tsleep { .. } | Step::Exit(_) | Step::Wait => true,
        Step::Qlock { q } => held(*q),
        _ => false,
    }
}

fn needs_process(step: &Step) -> bool {
    match step {
        Step::Rfork { .. } | Step::Name(_) | Step::Yield | Step::Tsleep { .. } => true,
        Step::Exit(_) | Step::Wait => true,
        Step::Qlock { q } => held(*q),
        Step::Sleep { c, .. } => !condition(*c),
        _ => false,
    }
}

/// As r9's rfork tests them; here only to know whether the tests after 10
/// come into it.
fn bad_flags(flags: u32) -> bool {
    let both = |a, b| flags & (a | b) == a | b;
    both(RFFDG, RFCFDG)
        || both(RFNAMEG, RFCNAMEG)
        || both(RFENVG, RFCENVG)
        || flags & RFPROC == 0 && flags & (RFMEM | RFNOWAIT) != 0
        || flags & (RFMEM | RFCNAMEG | RFCENVG | RFNOMNT) != 0
}

fn makes_process(step: &Step) -> bool {
    match step {
        Step::Start { .. } => true,
        Step::Rfork { flags, .. } => flags & RFPROC != 0,
        _ => false,
    }
}

fn duration_of(step: &Step) -> Option<Duration> {
    match *step {
        Step::Tsleep { d, .. } | Step::Tadd { d, .. } => Some(d),
        _ => None,
    }
}

fn too_short(step: &Step) -> bool {
    let periodic = matches!(step, Step::Tadd { periodic: true, .. });
    duration_of(step).is_some_and(|d| d.is_zero() || periodic && d < MIN_PERIOD)
}

pub fn now_of(step: &Step) -> Option<u64> {
    match *step {
        Step::Tsleep { now, .. } | Step::Tadd { now, .. } => Some(now),
        Step::Clock { now } | Step::Intr { now } => Some(now),
        _ => None,
    }
}

/// Whether the step would put a process on a Rendez where another sleeps.
fn another_asleep(driver: &Driver, step: &Step) -> bool {
    match *step {
        Step::Sleep { r, c } | Step::Tsleep { r, c, .. } => !condition(c) && asleep_on(r),
        Step::Sched => next_meets_5(driver),
        _ => false,
    }
}

/// Whether the process next to run would sleep again where another sleeps.
pub fn next_meets_5(driver: &Driver) -> bool {
    queued().first().is_some_and(|&p| would_sleep_on_another(driver, p))
}

/// Whether `p`, if it ran, would sleep again where another sleeps.
fn would_sleep_on_another(driver: &Driver, p: *mut Proc<Host>) -> bool {
    // SAFETY: p is in the run queue, so it is alive.
    let p = unsafe { &*p };
    match driver.calls.get(&p.pid) {
        Some(&Call::Sleep { r, c }) => !condition(c) && asleep_on(r),
        Some(&Call::Tsleep { r, c, .. }) => !p.trend.is_null() && !condition(c) && asleep_on(r),
        _ => false,
    }
}

/// Whether the running process's exit would queue a message for which no cell
/// is free, its own counted free.
fn no_cell(driver: &Driver, step: &Step) -> bool {
    let (Step::Exit(_), Some(p)) = (step, running()) else {
        return false;
    };
    message_due(p) && cells_in_use() - exits_of(p) >= driver.sizes.cells
}

fn message_due(p: &Proc<Host>) -> bool {
    p.parent.as_ref().is_some_and(|parent| {
        let node = LockNode::new();
        let state = parent.state.ilock(&node);
        state.alive && state.exits.len() < MAXWAIT
    })
}

fn exits_of(p: &Proc<Host>) -> usize {
    p.waitq.state.ilock(&LockNode::new()).exits.len()
}

pub fn cells_in_use() -> usize {
    // SAFETY: the processes are alive.
    parts().living.borrow().iter().map(|&p| exits_of(unsafe { &*p })).sum()
}
