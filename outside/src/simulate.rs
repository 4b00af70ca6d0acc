//! Rich machines: much happens to them, in a random order.

use crate::layout::{LAST_TIME, SHORTEST, Sizes, counts};
use crate::machine::Machine;
use crate::random::Random;

/// What a machine to be made is like.
#[derive(Clone, Copy)]
pub struct Wish {
    pub z: Sizes,
    /// How many of the records and of the cells should be in use, in percent.
    pub records: usize,
    pub cells: usize,
}

/// Sizes of one of several kinds, and how full.
pub fn small(rng: &mut Random) -> Wish {
    let z = Sizes {
        p: rng.of(&[1, 2, 3, 4, 5, 6, 8, 9]),
        r: rng.between(1, 5),
        q: rng.between(1, 3),
        k: rng.between(1, 4),
        c: rng.between(1, 12),
    };
    Wish { z, records: rng.of(&[0, 50, 90, 90, 100, 100, 100]), cells: rng.of(&[0, 50, 80, 100]) }
}

/// Sizes about a word's 64 bits and a wait queue's 128 exits.
pub fn middle(rng: &mut Random) -> Wish {
    let z = Sizes {
        p: rng.of(&[3, 12, 63, 64, 65, 66, 128, 130]),
        r: rng.between(1, 40),
        q: rng.between(1, 9),
        k: rng.between(1, 40),
        c: rng.of(&[7, 63, 64, 65, 127, 128, 129, 192, 260, 400]),
    };
    Wish { z, records: rng.of(&[40, 97, 100, 100]), cells: rng.of(&[40, 99, 100, 100]) }
}

/// Sizes about a full word's 4,096 cells.
pub fn wide(rng: &mut Random) -> Wish {
    let z = Sizes {
        p: rng.between(34, 70),
        r: rng.between(1, 20),
        q: rng.between(1, 9),
        k: rng.between(1, 20),
        c: rng.of(&[4_095, 4_096, 4_097, 4_160]),
    };
    Wish { z, records: 100, cells: rng.of(&[99, 100, 100]) }
}

/// The largest sizes.
pub fn large(full: bool) -> Wish {
    let z = Sizes { p: 4_096, r: 4_096, q: 4_096, k: 4_096, c: 65_000 };
    Wish { z, records: if full { 100 } else { 93 }, cells: if full { 100 } else { 96 } }
}

/// A rich machine.
pub fn rich(wish: Wish, rng: &mut Random) -> Machine {
    let hz = rng.of(&[1, 3, 1_000, 1_000_000, 999_999_999, 4_294_967_295]);
    let mut m = Machine::fresh(wish.z, hz);
    start_of_history(&mut m, wish, rng);
    let turns = if wish.z.p > 1_000 { 3 } else { 12 };
    for _ in 0..turns {
        populate(&mut m, wish.records, rng);
        for _ in 0..wish.z.p {
            turn(&mut m, rng);
        }
    }
    populate(&mut m, wish.records, rng);
    settle(&mut m, rng);
    fill_cells(&mut m, wish.cells, rng);
    for condition in &mut m.conditions {
        *condition = rng.percent(30);
    }
    m
}

/// The machine may have a long history: high pids, many ticks.
fn start_of_history(m: &mut Machine, wish: Wish, rng: &mut Random) {
    let room = 60 * wish.z.p as u64 + 300 * wish.z.c as u64;
    m.next_pid = match rng.below(5) {
        0 | 1 => 1,
        2 => 1 + rng.up_to(1_000_000),
        3 => 1 + rng.up_to(u64::MAX - 2 - room),
        _ => u64::MAX - rng.up_to(room),
    };
    m.last_now = match rng.below(5) {
        0 => 0,
        1 => rng.up_to(LAST_TIME),
        2 => LAST_TIME,
        _ => rng.up_to(1_000_000_000),
    };
    m.ticks = match rng.below(3) {
        0 => 0,
        1 => m.last_now,
        _ => rng.up_to(m.last_now),
    };
}

/// Makes processes until so many percent of the records are in use.
fn populate(m: &mut Machine, percent: usize, rng: &mut Random) {
    let mut free = m.free();
    let mut living = m.living();
    let wanted = m.z.p * percent / 100;
    let takes_highest = rng.percent(50);
    while living.len() < wanted && m.next_pid < u64::MAX {
        let at = if takes_highest { free.len() - 1 } else { rng.below(free.len()) };
        let record = free.remove(at);
        let parent = parent(m, &living, rng);
        m.make(record, parent, name(rng));
        let most = m.ticks + 10;
        m.process_mut(record).quantum_end = rng.up_to(most);
        living.push(record);
    }
}

/// A living parent, none, or one that lives no more.
fn parent(m: &Machine, living: &[usize], rng: &mut Random) -> u64 {
    match (rng.below(6), rng.any(living)) {
        (0, _) => 0,
        (1, _) => rng.up_to(m.next_pid - 1),
        (2, Some(_)) => m.process(living[0]).pid,
        (_, Some(i)) => m.process(i).pid,
        (_, None) => 0,
    }
}

fn name(rng: &mut Random) -> [u8; 28] {
    let mut name = [0; 28];
    for byte in name.iter_mut().take(rng.between(0, 28)) {
        *byte = rng.bits() as u8;
    }
    name
}

fn message(rng: &mut Random) -> Vec<u8> {
    let length = rng.of(&[0, 1, 12, 126, 127, rng.clone().between(0, 127)]);
    (0..length).map(|_| rng.bits() as u8).collect()
}

/// One thing happens.
pub fn turn(m: &mut Machine, rng: &mut Random) {
    let (r, q) = (rng.below(m.z.r), rng.below(m.z.q));
    match rng.below(21) {
        0..=3 => m.dispatch(rng.percent(50)),
        4 => m.yields(),
        5 | 6 => m.sleep(r, rng.bits() as u8, None),
        7..=9 => m.sleep(r, rng.bits() as u8, Some(m.last_now + duration(m, rng))),
        10 => m.wakeup(r),
        11 | 12 => m.qlock(q),
        13 if rng.percent(50) => m.qunlock(q),
        14 | 15 => m.wait(),
        16 => exits(m, rng),
        17 => tadd(m, rng),
        18 if m.z.k > 1 && rng.percent(20) => m.unqueue(rng.between(1, m.z.k - 1)),
        19 => m.clock(),
        20 => time_passes(m, rng),
        _ => {}
    }
}

/// Counts up to which a timer is set.
fn duration(m: &Machine, rng: &mut Random) -> u64 {
    match rng.below(4) {
        0 => 1 + rng.up_to(3),
        1 => m.settings[0].period,
        2 => 1 + rng.up_to((1 << 63) - 2),
        _ => 1 + rng.up_to(10_000_000),
    }
}

/// Who runs exits, but seldom where there are few.
fn exits(m: &mut Machine, rng: &mut Random) {
    let cell = rng.any(&m.free_cells());
    m.exit(cell, message(rng));
}

fn tadd(m: &mut Machine, rng: &mut Random) {
    if m.z.k > 1 {
        let (timer, rendez) = (rng.between(1, m.z.k - 1), rng.below(m.z.r));
        let counts = duration(m, rng).max(counts(SHORTEST, m.hz));
        m.tadd(timer, counts, rng.percent(50), rendez);
    }
}

fn time_passes(m: &mut Machine, rng: &mut Random) {
    let step = match rng.below(3) {
        0 => 1,
        1 => m.settings[0].period * rng.up_to(3),
        _ => duration(m, rng).min(1 << 40),
    };
    m.interrupt(m.last_now + step, 50);
}

/// Most of the ready go somewhere else, so that not all end in the run queue;
/// then mostly one runs.
fn settle(m: &mut Machine, rng: &mut Random) {
    for _ in 0..m.ready.len() {
        m.dispatch(false);
        let (r, q) = (rng.below(m.z.r), rng.below(m.z.q));
        match rng.below(11) {
            0 | 1 => m.sleep(r, rng.bits() as u8, None),
            2 | 3 => m.sleep(r, rng.bits() as u8, Some(m.last_now + duration(m, rng))),
            4..=6 => m.qlock(q),
            7 => m.wait(),
            8 => m.wakeup(r),
            _ => {}
        }
        m.yields();
    }
    if rng.percent(75) {
        let (r, q) = (rng.below(m.z.r), rng.below(m.z.q));
        if m.ready.is_empty() {
            m.wakeup(r);
        }
        if m.ready.is_empty() && m.locks[q].held {
            m.qunlock(q);
        }
        m.dispatch(false);
    }
}

/// Children come and exit until so many percent of the cells are in use; some
/// wait queues are filled to the brim first.
fn fill_cells(m: &mut Machine, percent: usize, rng: &mut Random) {
    let mut living = m.living();
    let mut free = m.free_cells();
    let kept_free = m.z.c - m.z.c * percent / 100;
    while free.len() > kept_free && !living.is_empty() && m.next_pid < u64::MAX {
        let at = rng.below(living.len());
        let wanted = if rng.percent(30) { 128 } else { rng.between(1, 40) };
        for _ in 0..wanted {
            if free.len() > kept_free
                && m.next_pid < u64::MAX
                && m.process(living[at]).exits.len() < 128
            {
                let cell = free.swap_remove(rng.below(free.len()));
                m.next_pid += 1;
                m.tell(living[at], m.next_pid - 1, Some(cell), message(rng));
            }
        }
        if m.process(living[at]).exits.len() == 128 {
            living.swap_remove(at);
        }
    }
}
