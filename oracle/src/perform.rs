//! The steps, each given to r9's own function.  A step is performed in the
//! context of the process that runs, or in the driver's where none does.

use crate::dat::{Proc, ProcArch, QLock, Rendez, WaitQueue};
use crate::error::{EBADARG, EINUSE, ENOCHILD, ENOVMEM};
use crate::host::{self, Host, Single};
use crate::pagealloc::NO_PAGES;
use crate::parse::{NAME_MAX, Step};
use crate::sizes::{CONDITIONS, Sizes};
use crate::timer::{self, Mode, Timer};
use crate::{irq, proc};
use std::cell::{Cell, OnceCell, RefCell};
use std::collections::HashMap;
use std::sync::atomic::Ordering;
use std::time::Duration;

#[derive(Clone, Debug, PartialEq)]
pub enum Answer {
    Pid(u64),
    /// The process dispatched, and the exit that its wait gave.
    Run(u64, Option<(u64, Vec<u8>)>),
    Done,
    Asleep,
    Yes,
    No,
    Fired(u64, u64),
    Exit(u64, Vec<u8>),
    Child(u64, Vec<u8>),
    Idle,
    End,
    Refused(u32),
}

/// What the steps name by number.
pub struct Parts {
    pub rendez: Vec<Rendez>,
    pub locks: Vec<QLock>,
    pub conditions: Vec<Cell<bool>>,
    pub timers: Vec<KernelTimer>,
    /// The living processes, wherever they are.
    pub living: RefCell<Vec<*mut Proc<Host>>>,
    /// Whose each wait queue is or was; one that has gone may have the address
    /// of a later one, which stands here then.
    pub wait_queues: RefCell<HashMap<*const WaitQueue, u64>>,
}

/// A kernel timer: r9's Timer, whose mode cannot change, and the mode.
pub struct KernelTimer {
    pub mode: Cell<(bool, Duration)>,
    timer: Cell<&'static Timer>,
    pub rendez: Cell<usize>,
}

static PARTS: Single<OnceCell<Parts>> = Single(OnceCell::new());
/// How many callbacks of kernel timers were run.
static CALLBACKS: Single<Cell<u64>> = Single(Cell::new(0));

pub fn init(sizes: &Sizes) {
    let parts = Parts {
        rendez: (0..sizes.rendez).map(|_| Rendez::new()).collect(),
        locks: (0..sizes.locks).map(|_| QLock::new()).collect(),
        conditions: vec![Cell::new(false); CONDITIONS],
        timers: (0..sizes.timers).map(KernelTimer::new).collect(),
        living: RefCell::default(),
        wait_queues: RefCell::default(),
    };
    assert!(PARTS.0.set(parts).is_ok(), "two lists in one run");
}

pub fn parts() -> &'static Parts {
    PARTS.0.get().expect("the parts are made first")
}

impl KernelTimer {
    fn new(number: usize) -> KernelTimer {
        let mode = (false, Duration::from_secs(1));
        KernelTimer {
            mode: Cell::new(mode),
            timer: Cell::new(make_timer(number, mode)),
            rendez: Cell::new(0),
        }
    }

    /// Whether this is its Timer.
    pub fn is(&self, timer: *const Timer) -> bool {
        std::ptr::eq(self.timer.get(), timer)
    }
}

/// A Timer for kernel timer `number`.  It lives as long as the program, as
/// r9's `add` asks.
fn make_timer(number: usize, (periodic, d): (bool, Duration)) -> &'static Timer {
    let mode = if periodic { Mode::Periodic(d) } else { Mode::Relative(d) };
    Box::leak(Box::new(Timer::with_arg(mode, kernel_callback, number as *mut ())))
}

fn kernel_callback(number: *mut ()) {
    CALLBACKS.0.set(CALLBACKS.0.get() + 1);
    let timer = &parts().timers[number as usize];
    proc::wakeup::<Host>(&parts().rendez[timer.rendez.get()]);
}

/// Perform the step, in interrupt context where it is marked.
pub fn marked(marked: bool, step: Step) -> Answer {
    if !marked {
        return perform(step);
    }
    irq::enter_interrupt();
    let answer = perform(step);
    irq::exit_interrupt();
    answer
}

fn perform(step: Step) -> Answer {
    match step {
        Step::Start { m } => failing(m, start),
        Step::Rfork { flags, m } => failing(m, || rfork(flags)),
        Step::Name(name) => done(|| set_name(&name)),
        Step::Sched => unreachable!("sched is the driver's"),
        Step::Yield => done(proc::yield_now::<Host>),
        Step::Sleep { r, c } => done(|| proc::sleep::<Host>(rendez(r), || condition(c))),
        Step::Tsleep { r, c, d, now } => {
            at(now, || proc::tsleep::<Host>(rendez(r), || condition(c), d))
        }
        Step::Wakeup { r } => yes_or_no(proc::wakeup::<Host>(rendez(r))),
        Step::Qlock { q } => done(|| parts().locks[q].qlock()),
        Step::Canqlock { q } => yes_or_no(parts().locks[q].canqlock()),
        Step::Qunlock { q } => done(|| parts().locks[q].qunlock()),
        Step::Cond { c, v } => done(|| parts().conditions[c].set(v)),
        Step::Clock { now } => at(now, timer::start),
        Step::Tadd { t, periodic, d, r, now } => at(now, || tadd(t, (periodic, d), r)),
        Step::Tdel { t } => done(|| timer::remove(parts().timers[t].timer.get())),
        Step::Intr { now } => intr(now),
        Step::Due => yes_or_no(proc::preempt_due::<Host>()),
        Step::Exit(status) => proc::pexit::<Host>(&status),
        Step::Wait => match proc::pwait::<Host>() {
            Ok(exit) => Answer::Child(exit.pid, exit.msg),
            Err(error) => refused(error),
        },
    }
}

fn rendez(r: usize) -> &'static Rendez {
    &parts().rendez[r]
}

fn condition(c: usize) -> bool {
    parts().conditions[c].get()
}

fn done(f: impl FnOnce()) -> Answer {
    f();
    Answer::Done
}

/// Do `f` at the reading `now`.
fn at(now: u64, f: impl FnOnce()) -> Answer {
    host::NOW.0.set(now);
    done(f)
}

fn yes_or_no(yes: bool) -> Answer {
    if yes { Answer::Yes } else { Answer::No }
}

/// The number of an error that r9 returned.
fn refused(error: &str) -> Answer {
    Answer::Refused(match error {
        EBADARG => 10,
        ENOVMEM => 11,
        EINUSE => 14,
        ENOCHILD => 15,
        _ => panic!("an error without a number: {error}"),
    })
}

/// Do `f` with what `m` says failing: the address space, the stack or pages.
fn failing(m: u64, f: impl FnOnce() -> Answer) -> Answer {
    fail(m);
    let answer = f();
    fail(0);
    answer
}

fn fail(m: u64) {
    host::NO_SPACE.0.set(m == 1);
    host::NO_STACK.0.set(m == 2);
    NO_PAGES.store(m == 3, Ordering::Relaxed);
}

fn start() -> Answer {
    match proc::newproc::<Host>(host::program) {
        Ok(p) => {
            let pid = p.pid;
            proc::ready(p);
            Answer::Pid(pid)
        }
        Err(_) => refused(ENOVMEM),
    }
}

fn rfork(flags: u32) -> Answer {
    match proc::rfork::<Host>(flags) {
        Ok(pid) => Answer::Pid(pid),
        Err(error) => refused(error),
    }
}

fn set_name(name: &[u8]) {
    let mut text = [0; NAME_MAX];
    text[..name.len()].copy_from_slice(name);
    // SAFETY: the guard saw that a process runs.
    unsafe { (*Host::up()).text = text };
}

/// Add kernel timer `t`.  With its old mode it is the same Timer, which `add`
/// moves where it is queued; with another it is a new one.
fn tadd(t: usize, mode: (bool, Duration), r: usize) {
    let kernel = &parts().timers[t];
    if kernel.mode.replace(mode) != mode {
        timer::remove(kernel.timer.get());
        kernel.timer.set(make_timer(t, mode));
    }
    kernel.rendez.set(r);
    timer::add(kernel.timer.get());
}

/// Fire the timers that are due, and count: each firing is a tick, a kernel
/// timer's callback, or a process's trend cleared.
fn intr(now: u64) -> Answer {
    let (ticks, callbacks) = (timer::ticks(), CALLBACKS.0.get());
    let (stuck, set) = (host::STUCK.0.get(), trends_set());
    at(now, timer::interrupt);
    let fired = timer::ticks() - ticks + CALLBACKS.0.get() - callbacks + set - trends_set();
    Answer::Fired(fired, host::STUCK.0.get() - stuck)
}

/// How many living processes have their trend set.
fn trends_set() -> u64 {
    let living = parts().living.borrow();
    // SAFETY: they are alive.
    living.iter().filter(|&&p| unsafe { !(*p).trend.is_null() }).count() as u64
}
