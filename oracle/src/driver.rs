//! The driver: takes a list's lines one by one, and keeps what r9's structures
//! do not tell: the last reading, the call in which a switched-out process is,
//! and the deadlines, from which it knows beforehand how many timers fire.

use crate::clock;
use crate::dat::{Proc, ProcArch, State};
use crate::guard;
use crate::host::{self, Ended, Host};
use crate::mcslock::LockNode;
use crate::parse::{self, Step};
use crate::perform::{self, Answer, parts};
use crate::proc::pids;
use crate::sizes::Sizes;
use crate::timer;
use std::collections::BTreeMap;
use std::sync::Arc;
use std::time::Duration;

/// The most firings of a step that is run.
const MOST_FIRINGS: u64 = 1_000_000;
const TICK: Duration = Duration::from_millis(10);

/// The call in which a process was switched out.
#[derive(Clone, Copy, PartialEq)]
pub enum Call {
    Sleep {
        r: usize,
        c: usize,
    },
    /// With the deadline of the process's timer while that is queued.
    Tsleep {
        r: usize,
        c: usize,
        due: Option<u64>,
    },
    Qlock {
        q: usize,
    },
    Wait,
}

/// A queued timer: its deadline, and its period in counts if it has one.
#[derive(Clone, Copy)]
pub struct Queued {
    pub due: u64,
    pub period: Option<u64>,
}

pub struct Driver {
    pub sizes: Sizes,
    /// The last accepted NOW.
    pub last_now: u64,
    pub calls: BTreeMap<u64, Call>,
    /// The kernel timers that are queued, by number.
    pub timers: Vec<Option<Queued>>,
    /// The exits since `schedule` was last called.
    exits: Vec<(u64, Vec<u8>)>,
}

impl Driver {
    pub fn new(sizes: Sizes) -> Driver {
        host::init(sizes.hz);
        perform::init(&sizes);
        Driver {
            sizes,
            last_now: 0,
            calls: BTreeMap::new(),
            timers: vec![None; sizes.timers],
            exits: Vec::new(),
        }
    }

    /// Take the step of a line.
    pub fn line(&mut self, line: &[u8]) -> Result<Answer, String> {
        match parse::line(line, &self.sizes) {
            Some((marked, step)) => self.step(marked, step),
            None => Ok(Answer::Refused(2)),
        }
    }

    /// Take a step, whose fields are in range.
    pub fn step(&mut self, marked: bool, step: Step) -> Result<Answer, String> {
        if let Some(number) = guard::refusal(self, marked, &step) {
            return Ok(Answer::Refused(number));
        }
        let firings = self.firings_of(&step);
        if firings > MOST_FIRINGS {
            return Err(format!("a step fires {firings} timers, more than {MOST_FIRINGS}"));
        }
        let answer = self.give(marked, &step);
        if !matches!(answer, Answer::Refused(_)) {
            self.note(&step, &answer);
        }
        Ok(answer)
    }

    /// Give the step to r9, in the running process's context if one runs.
    fn give(&mut self, marked: bool, step: &Step) -> Answer {
        // SAFETY: up is null or the running process.
        let Some(up) = (unsafe { Host::up().as_ref() }) else {
            return match step {
                Step::Sched => self.turn(),
                _ => perform::marked(marked, step.clone()),
            };
        };
        let (pid, up) = (up.pid, Host::up());
        match host::resume_process(marked, step.clone()) {
            Ended::Waits(answer) => answer.expect("a process waits without having answered"),
            // SAFETY: an exited process is freed when the scheduler goes on.
            Ended::SwitchedOut => self.switched_out(pid, step, unsafe { &*up }),
        }
    }

    /// The answer of a step after which process `pid` no longer runs.
    fn switched_out(&mut self, pid: u64, step: &Step, p: &Proc<Host>) -> Answer {
        match p.state {
            State::Ready => Answer::Done,
            State::Sleeping | State::Queueing => {
                self.calls.insert(pid, self.call_of(step));
                Answer::Asleep
            }
            State::Exited => {
                self.exits.push((pid, p.exit_status.clone()));
                Answer::Exit(pid, p.exit_status.clone())
            }
            State::Running => panic!("a process that runs was switched out"),
        }
    }

    fn call_of(&self, step: &Step) -> Call {
        match *step {
            Step::Sleep { r, c } => Call::Sleep { r, c },
            Step::Tsleep { r, c, d, now } => Call::Tsleep { r, c, due: Some(now + self.counts(d)) },
            Step::Qlock { q } => Call::Qlock { q },
            Step::Wait => Call::Wait,
            _ => panic!("asleep in {step:?}"),
        }
    }

    fn counts(&self, d: Duration) -> u64 {
        clock::to_counts(d, self.sizes.hz)
    }

    /// One turn of `schedule`.
    fn turn(&mut self) -> Answer {
        let (turn, ended) = host::resume_scheduler();
        match (turn.dispatched, ended) {
            (Some(pid), Ended::Waits(answer)) => {
                self.calls.remove(&pid);
                Answer::Run(pid, child_of(answer))
            }
            (Some(_), Ended::SwitchedOut) => Answer::Asleep,
            (None, _) if turn.idle => Answer::Idle,
            (None, _) => self.end(),
        }
    }

    /// `schedule` found nothing to do; it opened the IRQs before it returned.
    fn end(&mut self) -> Answer {
        let (turn, _) = host::resume_scheduler();
        let exits = turn.ended.expect("schedule found nothing and did not return");
        assert!(exits == std::mem::take(&mut self.exits), "schedule returned other exits");
        Answer::End
    }

    /// Keep the driver's own notes of a step that was done.
    fn note(&mut self, step: &Step, answer: &Answer) {
        if let Some(now) = guard::now_of(step) {
            self.last_now = now;
        }
        match (step, answer) {
            (_, Answer::Pid(pid)) if *pid != 0 => note_birth(*pid),
            (_, Answer::Exit(pid, _)) => note_death(*pid),
            (Step::Clock { now }, _) => self.note_timer(0, true, TICK, *now),
            (&Step::Tadd { t, periodic, d, now, .. }, _) => self.note_timer(t, periodic, d, now),
            (Step::Tdel { t }, _) => self.timers[*t] = None,
            (Step::Intr { now }, Answer::Fired(fired, _)) => self.note_firings(*now, *fired),
            _ => {}
        }
    }

    fn note_timer(&mut self, t: usize, periodic: bool, d: Duration, now: u64) {
        let counts = self.counts(d);
        self.timers[t] = Some(Queued { due: now + counts, period: periodic.then_some(counts) });
    }

    fn note_firings(&mut self, now: u64, fired: u64) {
        assert!(
            fired == self.firings(now),
            "r9 fired {fired} timers, by the deadlines another number"
        );
        for timer in &mut self.timers {
            *timer = timer.and_then(|timer| timer.after(now));
        }
        for call in self.calls.values_mut() {
            if let Call::Tsleep { due, .. } = call {
                *due = due.filter(|&due| due > now);
            }
        }
    }

    fn firings_of(&self, step: &Step) -> u64 {
        match *step {
            Step::Intr { now } => self.firings(now),
            _ => 0,
        }
    }

    /// How many timers fire at the reading `now`.
    pub fn firings(&self, now: u64) -> u64 {
        let kernel: u64 = self.timers.iter().flatten().map(|timer| timer.firings(now)).sum();
        let due = |call: &&Call| matches!(call, Call::Tsleep { due: Some(due), .. } if *due <= now);
        kernel + self.calls.values().filter(due).count() as u64
    }
}

impl Queued {
    fn firings(self, now: u64) -> u64 {
        match (now.checked_sub(self.due), self.period) {
            (None, _) => 0,
            (Some(_), None) => 1,
            (Some(late), Some(period)) => late / period + 1,
        }
    }

    /// The timer after the firings at `now`, if it is still queued.
    fn after(self, now: u64) -> Option<Queued> {
        match (self.firings(now), self.period) {
            (0, _) => Some(self),
            (_, None) => None,
            (n, Some(period)) => Some(Queued { due: self.due + n * period, ..self }),
        }
    }
}

/// The exit that a finished wait gave.
fn child_of(answer: Option<Answer>) -> Option<(u64, Vec<u8>)> {
    match answer {
        Some(Answer::Child(pid, message)) => Some((pid, message)),
        Some(Answer::Done) | None => None,
        Some(other) => panic!("a resumed call ended in {other:?}"),
    }
}

fn note_birth(pid: u64) {
    let p = *queued().last().expect("a new process is in the run queue");
    // SAFETY: it is in the run queue.
    let born = unsafe { &*p };
    assert!(born.pid == pid, "the new process is not the last one queued");
    parts().living.borrow_mut().push(p);
    parts().wait_queues.borrow_mut().insert(Arc::as_ptr(&born.waitq), pid);
}

fn note_death(pid: u64) {
    // SAFETY: the exited process is freed when the scheduler goes on.
    parts().living.borrow_mut().retain(|&p| unsafe { (*p).pid } != pid);
}

/// The run queue, from its head: r9's own, all popped and all pushed back.
pub fn queued() -> Vec<*mut Proc<Host>> {
    let node = LockNode::new();
    let mut queue = Host::run_queue().ilock(&node);
    let all: Vec<_> = std::iter::from_fn(|| queue.pop()).collect();
    let keep = |p: Box<Proc<Host>>| {
        let address = &raw const *p;
        queue.push(p);
        address.cast_mut()
    };
    all.into_iter().map(keep).collect()
}

/// Whether the run queue is empty.
pub fn is_none_queued() -> bool {
    Host::run_queue().look(|queue| queue.is_empty())
}

/// The pids in the run queue, from its head.
pub fn queued_pids() -> Vec<u64> {
    // SAFETY: the queued processes are alive.
    queued().iter().map(|&p| unsafe { (*p).pid }).collect()
}

pub fn asleep() -> usize {
    Host::run_queue().ilock(&LockNode::new()).asleep
}

pub fn ticks() -> u64 {
    timer::ticks()
}

pub fn next_pid() -> u64 {
    pids::next()
}

/// The counter's reading: NOW of the last step that r9 was given with one.
pub fn now() -> u64 {
    host::NOW.0.get()
}

/// The running process's pid, or 0.
pub fn up() -> u64 {
    // SAFETY: up is null or the running process.
    unsafe { Host::up().as_ref() }.map_or(0, |p| p.pid)
}
