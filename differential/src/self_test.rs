//! Whether the comparisons find what they must: a list with something in every
//! queue, after which states with one thing wrong are compared, with r9's
//! structures or with the bytes before; and a write to memory that is read-only.

use crate::bytes;
use crate::expected::Expected;
use crate::lent::{Lent, Message};
use crate::library;
use crate::pages::Pages;
use crate::unused::Before;
use crate::view::View;
use oracle::driver::Driver;
use oracle::random::Random;
use oracle::sizes;
use outside::layout::*;

/// Pids 2, 3 and 4 wait for lock 2, which 1 holds; 5 sleeps on Rendez 3, 6 on
/// Rendez 4 with a timer that has the deadline of timers 1 and 2; 1 has the
/// exits of 10, 8 and 7; 9 sleeps on its waitr; 1 runs; 11 and 12 are ready;
/// the parent of 12, 10, has gone.
const LINES: &str = "start 0;start 0;start 0;start 0;start 0;start 0;\
    sched;qlock 2;yield;sched;qlock 2;sched;qlock 2;sched;qlock 2;\
    sched;sleep 3 7;sched;tsleep 4 8 1 0 0;tadd 1 0 1 0 0 0;tadd 2 0 1 0 0 0;\
    sched;rfork 16 0;rfork 16 0;rfork 16 0;rfork 16 0;yield;\
    sched;exit bay 7;sched;exit bay 8;sched;rfork 16 0;wait;\
    sched;rfork 16 0;exit bay 10;sched";

/// A state with one thing wrong: what, whether it is well formed all the same,
/// so that no check finds it, and how it is made.
type Wrong = (&'static str, bool, fn(&mut Edited));

const WRONG: [Wrong; 22] = [
    ("the run queue", true, |e| e.swap((RUN_HEAD, 0), NEXT, Some(RUN_TAIL), 0)),
    ("the first waiters for a lock", true, |e| e.swap((LOCK_HEAD, 2), NEXT, Some(LOCK_TAIL), 0)),
    ("the last waiters for a lock", true, |e| e.swap((LOCK_HEAD, 2), NEXT, Some(LOCK_TAIL), 1)),
    ("a process's timer and an equal one", true, |e| e.swap((TIMER_HEAD, 0), TIMER_NEXT, None, 0)),
    ("two equal timers", true, |e| e.swap((TIMER_HEAD, 0), TIMER_NEXT, None, 1)),
    ("a deadline", true, |e| e.flip(DEADLINE, 2)),
    ("two exits", true, |e| e.swap((EXITS, e.record(1)), CELL_NEXT, None, 0)),
    ("a message", true, |e| e.flip(MESSAGE_BYTE, 127 * (e.z.c - 1))),
    ("a held lock", true, |e| e.flip(HELD, 1)),
    ("two sleepers", true, |e| {
        e.exchange(SLEEPER_OF, 3, 4);
        e.exchange(RESUME_OBJECT, e.record(5), e.record(6));
    }),
    ("nchild", false, |e| e.flip(NCHILD, e.record(1))),
    ("who waits for an exit", false, |e| e.flip(STATE_OF, e.record(9))),
    ("the condition of a call", true, |e| e.flip(RESUME_CONDITION, e.record(5))),
    ("the period of a timer", true, |e| e.set(PERIOD, 1, 1_000_000_000)),
    ("the Rendez of a timer", true, |e| e.flip(TIMER_RENDEZ, 2)),
    ("the next pid", true, |e| e.set(NEXT_PID, 0, e.get(NEXT_PID, 0) + 1)),
    ("the last NOW", true, |e| e.flip(LAST_NOW, 0)),
    ("a condition", true, |e| e.flip(CONDITION_BIT, 255)),
    ("the end of a name", true, |e| e.flip(NAME_BYTE, 28 * e.record(12) + 27)),
    ("the end of a quantum", true, |e| e.flip(QUANTUM_END, e.record(11))),
    ("the parent of an orphan", true, |e| e.set(PARENT, e.record(12), 8)),
    ("the record of a parent", false, |e| e.set(PARENT_AT, e.record(11), e.record(1) as u64 + 1)),
];

/// The same of what the machine has no use for, and no comparison with r9 finds;
/// the last eleven are left over.
const UNUSED: [Wrong; 25] = [
    ("a free record's name", true, |e| e.flip(NAME_BYTE, 27)),
    ("a free record's parent", true, |e| e.flip(PARENT, 0)),
    ("a free record's call", true, |e| e.flip(RESUME_KIND, 0)),
    ("the link of an orphan", true, |e| e.flip(PARENT_AT, e.record(12))),
    ("a free cell's pid", true, |e| e.flip(EXIT_PID, 0)),
    ("a free cell's message", true, |e| e.flip(MESSAGE_BYTE, 0)),
    ("a byte behind a message", true, |e| e.flip(MESSAGE_BYTE, e.behind_message(e.z.c - 1))),
    ("the deadline of a timer not queued", true, |e| e.flip(DEADLINE, 3)),
    ("the period of a process's timer", true, |e| e.flip(PERIOD, e.z.k)),
    ("the Rendez of a queued process's timer", true, |e| e.flip(TIMER_RENDEZ, e.timer(6))),
    ("the Rendez of timer 0", true, |e| e.flip(TIMER_RENDEZ, 0)),
    ("a spare byte of a record", true, |e| e.flip_behind(RESUME_OBJECT, e.record(1))),
    ("a spare byte of a timer", true, |e| e.flip_behind(IS_QUEUED, 1)),
    ("a spare byte of a cell", true, |e| e.flip_behind(MESSAGE_LENGTH, 0)),
    ("the link of who runs", false, |e| e.flip(NEXT, e.record(1))),
    ("the link of a free record", false, |e| e.flip(NEXT, 0)),
    ("the object of no call", false, |e| e.flip(RESUME_OBJECT, e.record(1))),
    ("the condition of a qlock", false, |e| e.flip(RESUME_CONDITION, e.record(2))),
    ("the link of who has no parent", false, |e| e.flip(PARENT_AT, e.record(2))),
    ("the older of a free record", false, |e| e.flip(OLDER, 0)),
    ("the younger of a free record", false, |e| e.flip(YOUNGER, 0)),
    ("the exits of a free record", false, |e| e.flip(EXITS, 0)),
    ("the count of a free record's exits", false, |e| e.flip(NEXITS, 0)),
    ("the link of a free cell", false, |e| e.flip(CELL_NEXT, 0)),
    ("the link of a timer not queued", false, |e| e.flip(TIMER_NEXT, 0)),
];

/// What a step frees, with some bits of a number in it flipped.
type Freed = (&'static str, fn(&mut Edited, u64));

const FREED: [Freed; 4] = [
    ("a freed record's name", |e, bits| {
        let record = e.record(12);
        let fields = [PID, STATE_OF, OLDER, YOUNGER].map(|field| (field, record));
        e.free(&fields, (NAME_BYTE, 28 * record), bits);
    }),
    ("a freed cell's pid", |e, bits| {
        let cell = e.z.c - 1;
        e.free(&[(OWNER, cell), (CELL_NEXT, cell)], (EXIT_PID, cell), bits);
    }),
    ("a freed cell's link", |e, bits| {
        let cell = e.z.c - 1;
        e.free(&[(OWNER, cell), (CELL_NEXT, cell)], (CELL_NEXT, cell), bits);
    }),
    ("the deadline of a timer taken off", |e, bits| {
        e.free(&[(IS_QUEUED, 1), (TIMER_NEXT, 1)], (DEADLINE, 1), bits);
    }),
];

struct Edited {
    bytes: Vec<u8>,
    z: Sizes,
}

impl Edited {
    fn get(&self, field: Field, i: usize) -> u64 {
        field.get(&self.bytes, self.z, i)
    }

    fn set(&mut self, field: Field, i: usize, value: u64) {
        field.set(&mut self.bytes, self.z, i, value);
    }

    /// The record of a pid.
    fn record(&self, pid: u64) -> usize {
        (0..self.z.p).find(|&i| self.get(PID, i) == pid).expect("the list made it")
    }

    fn flip(&mut self, field: Field, i: usize) {
        self.set(field, i, self.get(field, i) ^ 1);
    }

    /// The spare byte behind a field.
    fn flip_behind(&mut self, field: Field, i: usize) {
        self.bytes[field.at(self.z, i) + field.width] ^= 1;
    }

    /// The timer of a pid.
    fn timer(&self, pid: u64) -> usize {
        self.z.k + self.record(pid)
    }

    /// The first byte behind a cell's message.
    fn behind_message(&self, cell: usize) -> usize {
        127 * cell + self.get(MESSAGE_LENGTH, cell) as usize
    }

    /// These fields are 0, and one has some of its bits flipped.
    fn free(&mut self, fields: &[(Field, usize)], (field, i): (Field, usize), flipped: u64) {
        fields.iter().for_each(|&(field, i)| self.set(field, i, 0));
        self.set(field, i, self.get(field, i) ^ flipped);
    }

    fn exchange(&mut self, field: Field, i: usize, j: usize) {
        let (of_i, of_j) = (self.get(field, i), self.get(field, j));
        self.set(field, i, of_j);
        self.set(field, j, of_i);
    }

    /// Exchange those at `place` and behind it in a queue.
    fn swap(&mut self, head: (Field, usize), next: Field, tail: Option<Field>, place: usize) {
        let view = View { bytes: &self.bytes, z: self.z };
        let mut queue: Vec<usize> = view.chain(self.get(head.0, head.1), next).collect();
        queue.swap(place, place + 1);
        let (mut field, mut at) = head;
        for &number in &queue {
            self.set(field, at, number as u64 + 1);
            (field, at) = (next, number);
        }
        self.set(field, at, 0);
        if let Some(tail) = tail {
            self.set(tail, head.1, at as u64 + 1);
        }
    }
}

/// What was found, or what was not.
pub fn run() -> Result<String, String> {
    let (driver, lent) = taken()?;
    let differs = |state: &[u8]| View { bytes: state, z: lent.z }.compare(&driver).is_err();
    let is_changed = |state: &[u8]| Before::new(lent.state(), lent.z).step(state).is_err();
    finds(&lent, &WRONG, differs)?;
    finds(&lent, &UNUSED, |state| is_changed(state) && !differs(state))?;
    for (what, free) in FREED {
        let is_found = |bits| is_changed(&edited(&lent, |e| free(e, bits)));
        if is_found(0) {
            return Err(format!("{what} right: found"));
        }
        if !is_found(1) {
            return Err(format!("{what} wrong: not found"));
        }
    }
    finds_a_write()?;
    let count = WRONG.len() + UNUSED.len() + FREED.len();
    Ok(format!("{count} wrong states and a write to read-only memory are found"))
}

fn edited(lent: &Lent, edit: impl Fn(&mut Edited)) -> Vec<u8> {
    let mut edited = Edited { bytes: lent.state().to_vec(), z: lent.z };
    edit(&mut edited);
    edited.bytes
}

/// Each of these is found.
fn finds(lent: &Lent, all: &[Wrong], is_found: impl Fn(&[u8]) -> bool) -> Result<(), String> {
    for &(what, is_formed, edit) in all {
        let mut state = edited(lent, edit);
        if library::check(&mut state) != is_formed {
            return Err(format!("{what} wrong: check does not say {is_formed}"));
        }
        if !is_found(&state) {
            return Err(format!("{what} wrong: not found"));
        }
    }
    Ok(())
}

/// The driver and the state after the list, which is as r9's.
fn taken() -> Result<(Driver, Lent), String> {
    let (sizes, mut random) = (sizes::Sizes::DEFAULT, Random::new(1));
    let (mut driver, mut lent) = (Driver::new(sizes), Lent::fresh(&sizes, &mut random)?);
    for line in LINES.split(';').map(str::as_bytes) {
        let expected = Expected::from(&driver.line(line)?);
        let step = bytes::of_line(line).expect("a step");
        lent.step(&step, &mut Message::any(&mut random), &expected)?;
        View { bytes: lent.state(), z: lent.z }.compare(&driver)?;
    }
    Ok((driver, lent))
}

/// A write that leaves what was there.
fn finds_a_write() -> Result<(), String> {
    const AT: usize = 5_000;
    let mut pages = Pages::new(3 * AT);
    let read = pages.read_only(|memory| memory[AT]).1;
    // SAFETY: the byte is in the memory that is lent.
    let written =
        pages.read_only(|memory| unsafe { memory.as_mut_ptr().add(AT).write_volatile(0) }).1;
    match (read, written) {
        (None, Some(AT)) => Ok(()),
        _ => Err(format!("read-only memory: a read {read:?}, a write at {AT} {written:?}")),
    }
}
