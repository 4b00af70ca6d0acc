//! Lists that are measured: an opening, then one cycle again and again.

use crate::opening::{repeat, waiters};
use oracle::sizes::Sizes;

pub struct Family {
    pub name: &'static str,
    pub opening: fn(&Sizes) -> Vec<String>,
    cycle: fn(&mut Writer),
    /// Cycles of a list.
    times: usize,
}

pub const FAMILIES: [Family; 7] = [
    Family { name: "yield, sched", opening: ready, cycle: yields, times: 30_000 },
    Family { name: "sleep, wakeup, cond, sched", opening: ready, cycle: sleeps, times: 12_288 },
    Family { name: "qlock, qunlock, sched", opening: queued, cycle: hands_over, times: 20_000 },
    Family { name: "rfork, wait, exit, sched", opening: all_but_one, cycle: forks, times: 12_000 },
    Family { name: "tadd, intr, tdel", opening: timers, cycle: adds, times: 15_000 },
    Family { name: "tsleep, intr, sched", opening: timers, cycle: sleeps_a_while, times: 20_000 },
    Family {
        name: "tadd behind all timers, tdel",
        opening: timers,
        cycle: adds_last,
        times: 2_000,
    },
];

/// 1 ms at 1,000,000 Hz.
const MILLISECOND: u64 = 1_000;

/// Writes cycles, one after another.
pub struct Writer {
    processes: usize,
    /// Which process is next, where they take turns.
    turn: usize,
    now: u64,
    lines: Vec<String>,
}

impl Writer {
    pub fn new(sizes: &Sizes) -> Writer {
        Writer { processes: sizes.processes, turn: 0, now: 0, lines: Vec::new() }
    }

    /// The next list.
    pub fn cycles(&mut self, family: &Family) -> Vec<String> {
        for _ in 0..family.times {
            (family.cycle)(self);
        }
        std::mem::take(&mut self.lines)
    }

    /// How many steps a list has.
    pub fn steps(&mut self, family: &Family) -> usize {
        self.cycles(family).len()
    }

    fn put<const N: usize>(&mut self, lines: [String; N]) {
        self.lines.extend(lines);
    }

    fn put_fixed(&mut self, lines: &[&str]) {
        self.lines.extend(repeat(lines, 1));
    }
}

/// All are ready.
fn ready(sizes: &Sizes) -> Vec<String> {
    repeat(&["start 0"], sizes.processes)
}

/// One runs and holds lock 0, for which all others wait.
fn queued(sizes: &Sizes) -> Vec<String> {
    waiters(sizes.processes)
}

/// The same, with one record free.
fn all_but_one(sizes: &Sizes) -> Vec<String> {
    waiters(sizes.processes - 1)
}

/// The same, and all kernel timers but timers 0 and 1 are queued.
fn timers(sizes: &Sizes) -> Vec<String> {
    let mut lines = waiters(sizes.processes);
    lines.extend((2..sizes.timers).map(|t| format!("tadd {t} 0 1000000 0 0 0")));
    lines
}

fn yields(w: &mut Writer) {
    w.put_fixed(&["sched", "yield"]);
}

/// Each process in turn sleeps on a Rendez of its own and is woken.
fn sleeps(w: &mut Writer) {
    let (r, c) = (w.turn, w.turn % 256);
    w.turn = (w.turn + 1) % w.processes;
    let (sleep, wakeup) = (format!("sleep {r} {c}"), format!("wakeup {r}"));
    w.put(["sched".into(), format!("cond {c} 0"), sleep, format!("cond {c} 1"), wakeup]);
}

fn hands_over(w: &mut Writer) {
    w.put_fixed(&["qunlock 0", "qlock 0", "sched"]);
}

fn forks(w: &mut Writer) {
    w.put_fixed(&["rfork 16 0", "wait", "sched", "exit bay 7", "sched"]);
}

/// Timer 1 is added before all others, and fires; added again, and removed.
fn adds(w: &mut Writer) {
    let (now, later) = (w.now, w.now + MILLISECOND);
    w.now = later;
    let add = |now: u64| format!("tadd 1 0 0 1000000 0 {now}");
    w.put([add(now), format!("intr {later}"), add(later), "tdel 1".into()]);
}

fn sleeps_a_while(w: &mut Writer) {
    let (now, later) = (w.now, w.now + MILLISECOND);
    w.now = later;
    w.put([format!("tsleep 0 0 0 1000000 {now}"), format!("intr {later}"), "sched".into()]);
}

fn adds_last(w: &mut Writer) {
    w.put_fixed(&["tadd 1 0 2000000 0 0 0", "tdel 1"]);
}
