//! What a state's bytes hold, read by docs/STATE.md, against what r9's own
//! structures hold: who runs, the order of every queue, who sleeps where, what
//! each process is and the exits in its wait queue.  Not r9's but the driver's
//! are the conditions, the counter's reading, what a kernel timer does, and the
//! call of who is switched out, which r9 has on that one's stack.

use oracle::driver::{self, Call, Driver};
use oracle::places::{self, Living, Timer};
use oracle::sizes::CONDITIONS;
use outside::layout::*;
use std::collections::BTreeMap;
use std::fmt::Debug;
use std::iter::successors;

/// What is compared: its name, and a number where there are several.
type Part = (&'static str, usize);

/// Of `state_of` and `resume_kind`: who has both sleeps on its own waitr.
const ASLEEP: u64 = 3;
const WAIT: u64 = 4;
const MESSAGE_MAX: usize = 127;

/// The bytes of a state.  Where a queue's links run in circles r9's ends first,
/// and they differ.
#[derive(Clone, Copy)]
pub struct View<'a> {
    pub bytes: &'a [u8],
    pub z: Sizes,
}

impl<'a> View<'a> {
    /// The first difference, if there is one.
    pub fn compare(self, driver: &Driver) -> Result<(), String> {
        self.compare_queues()?;
        self.compare_living(&driver.calls)
    }

    /// The same of all but the living and their wait queues, of which bare r9
    /// keeps no list.
    pub fn compare_queues(self) -> Result<(), String> {
        self.compare_numbers()?;
        let queued = driver::queued_pids();
        same_list(("the run queue", 0), self.processes(self.get(RUN_HEAD, 0)), queued.into_iter())?;
        for r in 0..self.z.r {
            same(("Rendez", r), self.pid(self.get(SLEEPER_OF, r)), places::sleeper(r))?;
        }
        for q in 0..self.z.q {
            same(("held, lock", q), self.get(HELD, q), u64::from(places::is_held(q)))?;
            same_list(("lock", q), self.processes(self.get(LOCK_HEAD, q)), places::waiters(q))?;
        }
        for t in 1..self.z.k {
            let does = (self.get(PERIOD, t), self.get(TIMER_RENDEZ, t));
            same(("kernel timer", t), does, places::kernel_timer(t))?;
        }
        same_list(("the timer queue", 0), self.timers(), places::timers())
    }

    /// Who runs, what is counted, and the conditions.
    fn compare_numbers(self) -> Result<(), String> {
        same(("who runs", 0), self.pid(self.get(UP, 0)), driver::up())?;
        same(("asleep", 0), self.get(ASLEEP_COUNT, 0), driver::asleep() as u64)?;
        same(("ticks", 0), self.get(TICKS, 0), driver::ticks())?;
        same(("the next pid", 0), self.get(NEXT_PID, 0), driver::next_pid())?;
        same(("the last NOW", 0), self.get(LAST_NOW, 0), driver::now())?;
        let bits = self.bytes[CONDITION_BIT.at(self.z, 0)..].iter().take(CONDITIONS);
        same_list(("the conditions", 0), bits.copied(), places::conditions().map(u8::from))
    }

    /// The living by age, and what each is.
    fn compare_living(self, calls: &BTreeMap<u64, Call>) -> Result<(), String> {
        let mut calls = calls.iter().peekable();
        let mut records = self.chain(self.get(OLDEST, 0), YOUNGER);
        for process in places::living() {
            let record = records.next();
            same(("the living", 0), record.map(|i| self.get(PID, i)), Some(process.pid()))?;
            if let Some(i) = record {
                let call = calls.next_if(|(pid, _)| **pid == process.pid());
                self.compare_call(i, &process, call.map(|(_, call)| call))?;
                self.compare_process(i, &process)?;
                self.compare_wait(i, &process)?;
            }
        }
        same(("the living", 0), records.next().map(|i| self.get(PID, i)), None)
    }

    /// The call in which it was switched out: its kind, and the object and the
    /// condition that such a one has.
    fn compare_call(self, i: usize, process: &Living, call: Option<&Call>) -> Result<(), String> {
        let of = |field| self.get(field, i) as usize;
        let is = match of(RESUME_KIND) {
            kind @ (1 | 2) => [kind, of(RESUME_OBJECT), of(RESUME_CONDITION)],
            3 => [3, of(RESUME_OBJECT), 0],
            kind => [kind, 0, 0],
        };
        let must = match call {
            None => [0, 0, 0],
            Some(&Call::Sleep { r, c }) => [1, r, c],
            Some(&Call::Tsleep { r, c, .. }) => [2, r, c],
            Some(&Call::Qlock { q }) => [3, q, 0],
            Some(Call::Wait) => [4, 0, 0],
        };
        same(("call, process", process.pid() as usize), is, must)
    }

    /// Its name, the end of its quantum, and its parent; that one's record too,
    /// where it lives.
    fn compare_process(self, i: usize, process: &Living) -> Result<(), String> {
        let pid = process.pid() as usize;
        let (name, parent) = (process.name(), process.parent());
        let bytes = &self.bytes[NAME_BYTE.at(self.z, name.len() * i)..];
        same(("name, process", pid), &bytes[..name.len()], &name[..])?;
        same(("quantum end, process", pid), self.get(QUANTUM_END, i), process.quantum_end())?;
        same(("parent, process", pid), self.get(PARENT, i), parent)?;
        if !process.has_living_parent() {
            return Ok(());
        }
        same(("parent's record, process", pid), self.pid(self.get(PARENT_AT, i)), parent)
    }

    /// Whether it sleeps on its waitr, its nchild, and its exits from the
    /// newest on.
    fn compare_wait(self, i: usize, process: &Living) -> Result<(), String> {
        let pid = process.pid() as usize;
        let is_waiting = self.get(STATE_OF, i) == ASLEEP && self.get(RESUME_KIND, i) == WAIT;
        same(("on its waitr, process", pid), is_waiting, process.is_waiting())?;
        same(("nchild, process", pid), self.get(NCHILD, i), process.nchild() as u64)?;
        process.exits(|exits| {
            same(("exits, process", pid), self.get(NEXITS, i), exits.len() as u64)?;
            let cells = self.chain(self.get(EXITS, i), CELL_NEXT).map(|c| self.exit(c));
            let exits = exits.iter().map(|exit| (exit.pid, &exit.msg[..]));
            same_list(("wait queue, process", pid), cells, exits)
        })
    }

    #[inline(always)]
    fn get(self, field: Field, i: usize) -> u64 {
        field.get(self.bytes, self.z, i)
    }

    /// The pid of a linked record, 0 of none.
    fn pid(self, link: u64) -> u64 {
        if link == 0 { 0 } else { self.get(PID, link as usize - 1) }
    }

    /// The numbers that a link and those behind it lead to.
    pub fn chain(self, link: u64, next: Field) -> impl Iterator<Item = usize> + use<'a> {
        let number = |link: u64| link.checked_sub(1).map(|n| n as usize);
        successors(number(link), move |&n| number(self.get(next, n)))
    }

    /// The pids from a link on.
    fn processes(self, link: u64) -> impl Iterator<Item = u64> + use<'a> {
        self.chain(link, NEXT).map(move |record| self.get(PID, record))
    }

    fn timers(self) -> impl Iterator<Item = (Timer, u64)> + use<'a> {
        self.chain(self.get(TIMER_HEAD, 0), TIMER_NEXT).map(move |t| {
            let timer = match t.checked_sub(self.z.k) {
                None => Timer::Kernel(t),
                Some(record) => Timer::Process(self.get(PID, record)),
            };
            (timer, self.get(DEADLINE, t))
        })
    }

    fn exit(self, cell: usize) -> (u64, &'a [u8]) {
        let message = &self.bytes[MESSAGE_BYTE.at(self.z, MESSAGE_MAX * cell)..];
        (self.get(EXIT_PID, cell), &message[..self.get(MESSAGE_LENGTH, cell) as usize])
    }
}

fn same<T: PartialEq + Debug>(part: Part, state: T, rust: T) -> Result<(), String> {
    match state == rust {
        true => Ok(()),
        false => Err(differs(part, 0, state, rust)),
    }
}

/// The same, place by place.
fn same_list<T: PartialEq + Debug>(
    part: Part,
    mut state: impl Iterator<Item = T>,
    mut rust: impl Iterator<Item = T>,
) -> Result<(), String> {
    for place in 1.. {
        match (state.next(), rust.next()) {
            (None, None) => break,
            (state, rust) if state == rust => {}
            (state, rust) => return Err(differs(part, place, state, rust)),
        }
    }
    Ok(())
}

fn differs<T: Debug>((name, number): Part, place: usize, state: T, rust: T) -> String {
    let place = if place == 0 { String::new() } else { format!(", place {place}") };
    format!("{name} {number}{place}: the state has {state:?}, the Rust {rust:?}")
}
