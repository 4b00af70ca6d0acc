//! A machine to bytes and back, by docs/STATE.md.

use crate::layout::*;
use crate::machine::{Call, Exit, Lock, Machine, Process, Setting};
use crate::random::mix;
use crate::reader::Kept;
use std::collections::HashMap;

/// What stands where the document says that anything may: zeros, or values in
/// range that depend on the place and this number.
#[derive(Clone, Copy)]
pub enum Rest {
    Zero,
    Of(u64),
}

/// A state being written.
struct Writer {
    bytes: Vec<u8>,
    z: Sizes,
}

impl Writer {
    fn set(&mut self, f: Field, i: usize, value: u64) {
        f.set(&mut self.bytes, self.z, i, value);
    }
}

fn link(to: Option<usize>) -> u64 {
    to.map_or(0, |i| i as u64 + 1)
}

/// The bytes of a machine.
pub fn encode(m: &Machine, rest: Rest) -> Vec<u8> {
    let mut w = Writer { bytes: vec![0; total(m.z)], z: m.z };
    if let Rest::Of(seed) = rest {
        fill(&mut w, seed);
    }
    put_header(&mut w, m);
    put_records(&mut w, m);
    put_ages(&mut w, m);
    put_families(&mut w, m);
    put_places(&mut w, m);
    put_timers(&mut w, m);
    put_cells(&mut w, m);
    put_conditions(&mut w, m);
    put_words(&mut w, m);
    w.bytes
}

/// Anything in all spare bytes, and a value in range in every field.
fn fill(w: &mut Writer, seed: u64) {
    for (at, byte) in w.bytes.iter_mut().enumerate() {
        *byte = mix(seed ^ at as u64) as u8;
    }
    for f in FIELDS {
        let highest = f.highest(w.z);
        if highest < f.ones() {
            for i in 0..f.region.records(w.z) {
                let value = mix(seed ^ f.at(w.z, i) as u64) % (highest + 1);
                w.set(*f, i, value);
            }
        }
    }
}

fn put_header(w: &mut Writer, m: &Machine) {
    w.set(MARK, 0, u64::from_le_bytes(MARK_BYTES));
    w.set(LAYOUT_NUMBER, 0, THIS_LAYOUT);
    w.set(HZ, 0, m.hz);
    w.set(SIZE_PROCESSES, 0, m.z.p as u64);
    w.set(SIZE_RENDEZ, 0, m.z.r as u64);
    w.set(SIZE_LOCKS, 0, m.z.q as u64);
    w.set(SIZE_TIMERS, 0, m.z.k as u64);
    w.set(SIZE_CELLS, 0, m.z.c as u64);
    w.set(NEXT_PID, 0, m.next_pid);
    w.set(TICKS, 0, m.ticks);
    w.set(LAST_NOW, 0, m.last_now);
}

fn put_records(w: &mut Writer, m: &Machine) {
    for (i, record) in m.records.iter().enumerate() {
        match record {
            None => {
                // Rules 4, 11 and 12.
                for f in [PID, STATE_OF, NEXT, OLDER, YOUNGER, EXITS, NEXITS] {
                    w.set(f, i, 0);
                }
            }
            Some(p) => put_process(w, i, p),
        }
    }
}

fn put_process(w: &mut Writer, i: usize, p: &Process) {
    w.set(PID, i, p.pid);
    w.set(PARENT, i, p.parent);
    w.set(QUANTUM_END, i, p.quantum_end);
    for (n, &byte) in p.name.iter().enumerate() {
        w.set(NAME_BYTE, 28 * i + n, u64::from(byte));
    }
    // Rule 11: they are 0 but in queues and in calls that have them; rule 7: without a parent there is no link to it.
    for f in [NEXT, RESUME_OBJECT, RESUME_CONDITION] {
        w.set(f, i, 0);
    }
    if p.parent == 0 {
        w.set(PARENT_AT, i, 0);
    }
    match p.call {
        Call::None => w.set(RESUME_KIND, i, 0),
        Call::Sleep { rendez, condition } => put_sleep(w, i, 1, rendez, condition),
        Call::Tsleep { rendez, condition } => put_sleep(w, i, 2, rendez, condition),
        Call::Qlock { lock } => {
            w.set(RESUME_KIND, i, 3);
            w.set(RESUME_OBJECT, i, lock as u64);
        }
        Call::Wait => w.set(RESUME_KIND, i, 4),
    }
}

fn put_sleep(w: &mut Writer, i: usize, kind: u64, rendez: usize, condition: u8) {
    w.set(RESUME_KIND, i, kind);
    w.set(RESUME_OBJECT, i, rendez as u64);
    w.set(RESUME_CONDITION, i, u64::from(condition));
}

/// The living by pid, linked both ways.
fn put_ages(w: &mut Writer, m: &Machine) {
    let mut living = m.living();
    living.sort_by_key(|&i| m.process(i).pid);
    w.set(OLDEST, 0, link(living.first().copied()));
    w.set(YOUNGEST, 0, link(living.last().copied()));
    for (n, &i) in living.iter().enumerate() {
        let before = n.checked_sub(1).map(|n| living[n]);
        w.set(OLDER, i, link(before));
        w.set(YOUNGER, i, link(living.get(n + 1).copied()));
    }
}

/// Counts of children, and links to living parents.
fn put_families(w: &mut Writer, m: &Machine) {
    let living = m.living();
    let records: HashMap<u64, usize> = living.iter().map(|&i| (m.process(i).pid, i)).collect();
    let mut children = HashMap::new();
    for &i in &living {
        let parent = m.process(i).parent;
        *children.entry(parent).or_insert(0) += 1;
        if parent != 0
            && let Some(&at) = records.get(&parent)
        {
            w.set(PARENT_AT, i, link(Some(at)));
        }
    }
    for &i in &living {
        w.set(NCHILD, i, children.get(&m.process(i).pid).copied().unwrap_or(0));
    }
}

/// Who runs, is ready, sleeps or waits.
fn put_places(w: &mut Writer, m: &Machine) {
    let mut asleep = vec![false; m.z.p];
    for (r, sleeper) in m.sleepers.iter().enumerate() {
        w.set(SLEEPER_OF, r, link(*sleeper));
        sleeper.iter().for_each(|&i| asleep[i] = true);
    }
    for (q, lock) in m.locks.iter().enumerate() {
        w.set(HELD, q, u64::from(lock.held));
        put_queue(w, lock.waiters.iter(), (LOCK_HEAD, LOCK_TAIL, q));
        lock.waiters.iter().for_each(|&i| asleep[i] = true);
    }
    m.on_waitr.iter().enumerate().filter(|(_, is_on)| **is_on).for_each(|(i, _)| asleep[i] = true);
    for i in (0..m.z.p).filter(|&i| asleep[i]) {
        w.set(STATE_OF, i, 3);
    }
    w.set(ASLEEP_COUNT, 0, asleep.iter().filter(|&&is| is).count() as u64);
    put_queue(w, m.ready.iter(), (RUN_HEAD, RUN_TAIL, 0));
    m.ready.iter().for_each(|&i| w.set(STATE_OF, i, 2));
    w.set(UP, 0, link(m.running));
    m.running.iter().for_each(|&i| w.set(STATE_OF, i, 1));
}

/// A queue of records through `next`, with its head and tail at `ends`.
fn put_queue<'a>(
    w: &mut Writer,
    queue: impl Iterator<Item = &'a usize>,
    ends: (Field, Field, usize),
) {
    let queue: Vec<usize> = queue.copied().collect();
    w.set(ends.0, ends.2, link(queue.first().copied()));
    w.set(ends.1, ends.2, link(queue.last().copied()));
    for (n, &i) in queue.iter().enumerate() {
        w.set(NEXT, i, link(queue.get(n + 1).copied()));
    }
}

fn put_timers(w: &mut Writer, m: &Machine) {
    for (t, setting) in m.settings.iter().enumerate() {
        w.set(PERIOD, t, setting.period);
        w.set(TIMER_RENDEZ, t, setting.rendez as u64);
    }
    for t in 0..m.z.k + m.z.p {
        w.set(IS_QUEUED, t, 0);
        w.set(TIMER_NEXT, t, 0);
    }
    w.set(TIMER_HEAD, 0, link(m.timers.front().map(|&(t, _)| t)));
    for (n, &(t, deadline)) in m.timers.iter().enumerate() {
        w.set(IS_QUEUED, t, 1);
        w.set(DEADLINE, t, deadline);
        w.set(TIMER_NEXT, t, link(m.timers.get(n + 1).map(|&(t, _)| t)));
    }
}

fn put_cells(w: &mut Writer, m: &Machine) {
    for c in 0..m.z.c {
        w.set(OWNER, c, 0);
        w.set(CELL_NEXT, c, 0);
    }
    for i in m.living() {
        let exits = &m.process(i).exits;
        w.set(EXITS, i, link(exits.front().map(|exit| exit.cell)));
        w.set(NEXITS, i, exits.len() as u64);
        for (n, exit) in exits.iter().enumerate() {
            put_exit(w, i, exit, exits.get(n + 1).map(|older| older.cell));
        }
    }
}

fn put_exit(w: &mut Writer, owner: usize, exit: &Exit, older: Option<usize>) {
    w.set(EXIT_PID, exit.cell, exit.pid);
    w.set(CELL_NEXT, exit.cell, link(older));
    w.set(OWNER, exit.cell, link(Some(owner)));
    w.set(MESSAGE_LENGTH, exit.cell, exit.message.len() as u64);
    for (n, &byte) in exit.message.iter().enumerate() {
        w.set(MESSAGE_BYTE, 127 * exit.cell + n, u64::from(byte));
    }
}

fn put_conditions(w: &mut Writer, m: &Machine) {
    for (c, &is_true) in m.conditions.iter().enumerate() {
        w.set(CONDITION_BIT, c, u64::from(is_true));
    }
}

/// The words in use, each with the full words above it.
fn put_words(w: &mut Writer, m: &Machine) {
    let records = words(64, m.z.p, |i| m.records[i].is_some());
    let cells = words(1_016, m.z.c, |c| m.used_cells[c]);
    let full = full(16, &cells);
    w.set(FULL_RECORDS, 0, self::full(1, &records)[0]);
    w.set(FULL_CELLS, 0, self::full(1, &full)[0]);
    for (f, words) in [(USED_RECORDS, records), (USED_CELLS, cells), (FULL_CELL_WORDS, full)] {
        for (i, &word) in words.iter().enumerate() {
            w.set(f, i, word);
        }
    }
}

/// A bit for each of `n` that is in use, from the highest number down.
fn words(count: usize, n: usize, is_used: impl Fn(usize) -> bool) -> Vec<u64> {
    let mut words = vec![0; count];
    for i in (0..n).filter(|&i| is_used(i)) {
        let bit = n - 1 - i;
        if bit / 64 < count {
            words[bit / 64] |= 1 << (bit % 64);
        }
    }
    words
}

/// A bit for each word that is all ones.
fn full(count: usize, below: &[u64]) -> Vec<u64> {
    let mut words = vec![0; count];
    for w in (0..below.len()).filter(|&w| below[w] == u64::MAX) {
        words[w / 64] |= 1 << (w % 64);
    }
    words
}

/// The machine that a well-formed state holds.
pub fn decode(bytes: &[u8]) -> Option<Machine> {
    let k = Kept::read(bytes)?;
    let mut m = Machine::fresh(k.z, k.header(HZ));
    m.next_pid = k.header(NEXT_PID);
    m.ticks = k.header(TICKS);
    m.last_now = k.header(LAST_NOW);
    m.running = k.link(UP, 0);
    m.ready = chain(&k, k.link(RUN_HEAD, 0), NEXT).into();
    m.records = (0..k.z.p).map(|i| decode_process(&k, i)).collect();
    m.sleepers = (0..k.z.r).map(|r| k.link(SLEEPER_OF, r)).collect();
    m.on_waitr =
        (0..k.z.p).map(|i| k.get(STATE_OF, i) == 3 && k.get(RESUME_KIND, i) == 4).collect();
    m.locks = (0..k.z.q).map(|q| decode_lock(&k, q)).collect();
    m.settings = (0..k.z.k).map(|t| decode_setting(&k, t)).collect();
    let timers = chain(&k, k.link(TIMER_HEAD, 0), TIMER_NEXT);
    m.timers = timers.into_iter().map(|t| (t, k.get(DEADLINE, t))).collect();
    m.conditions = (0..256).map(|c| k.get(CONDITION_BIT, c) == 1).collect();
    m.used_cells = (0..k.z.c).map(|c| k.get(OWNER, c) != 0).collect();
    Some(m)
}

fn chain(k: &Kept, head: Option<usize>, next: Field) -> Vec<usize> {
    std::iter::successors(head, |&i| k.link(next, i)).collect()
}

fn decode_lock(k: &Kept, q: usize) -> Lock {
    Lock { held: k.get(HELD, q) == 1, waiters: chain(k, k.link(LOCK_HEAD, q), NEXT).into() }
}

fn decode_setting(k: &Kept, t: usize) -> Setting {
    Setting { period: k.get(PERIOD, t), rendez: k.get(TIMER_RENDEZ, t) as usize }
}

fn decode_process(k: &Kept, i: usize) -> Option<Process> {
    let pid = k.get(PID, i);
    if pid == 0 {
        return None;
    }
    let exit = |cell| Exit { cell, pid: k.get(EXIT_PID, cell), message: k.message(cell).to_vec() };
    Some(Process {
        pid,
        parent: k.get(PARENT, i),
        quantum_end: k.get(QUANTUM_END, i),
        name: k.name(i).try_into().expect("28 bytes"),
        call: decode_call(k, i),
        exits: chain(k, k.link(EXITS, i), CELL_NEXT).into_iter().map(exit).collect(),
    })
}

fn decode_call(k: &Kept, i: usize) -> Call {
    let object = k.get(RESUME_OBJECT, i) as usize;
    let condition = k.get(RESUME_CONDITION, i) as u8;
    match k.get(RESUME_KIND, i) {
        0 => Call::None,
        1 => Call::Sleep { rendez: object, condition },
        2 => Call::Tsleep { rendez: object, condition },
        3 => Call::Qlock { lock: object },
        _ => Call::Wait,
    }
}
