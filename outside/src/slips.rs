//! Machines with one thing wrong.  Their states are written without a fault, so
//! that mostly one clause alone is broken.

use crate::layout::{LAST_TIME, SHORTEST, TICK, counts};
use crate::machine::{Call, Exit, Machine};
use crate::random::Random;

/// Makes one thing wrong, or finds that it cannot.
type Slip = fn(&mut Machine, &mut Random) -> Option<()>;

pub const SLIPS: &[(&str, Slip)] = &[
    ("slip: runs and is ready", runs_and_is_ready),
    ("slip: ready and sleeps", ready_and_sleeps),
    ("slip: sleeps twice", sleeps_twice),
    ("slip: sleeps and waits for a lock", sleeps_and_waits),
    ("slip: waits for two locks", waits_for_two),
    ("slip: on waitr and on a Rendez", on_waitr_and_rendez),
    ("slip: in no place", in_no_place),
    ("slip: lock not held", lock_not_held),
    ("slip: timers out of order", timers_out_of_order),
    ("slip: timer without tsleep", timer_without_tsleep),
    ("slip: timer of a free record", timer_of_the_dead),
    ("slip: next pid too low", next_pid_too_low),
    ("slip: next pid 0", next_pid_zero),
    ("slip: pid used twice", pid_twice),
    ("slip: own parent", own_parent),
    ("slip: parent younger", parent_younger),
    ("slip: ticks after last NOW", ticks_after_now),
    ("slip: ticks at timer 0", ticks_at_timer_zero),
    ("slip: quantum too long", quantum_too_long),
    ("slip: last NOW too high", now_too_high),
    ("slip: runs in a call", runs_in_a_call),
    ("slip: sleeps in another call", sleeps_in_another_call),
    ("slip: waits in another call", waits_in_another_call),
    ("slip: ready, call out of range", ready_call_out_of_range),
    ("slip: period too short", period_too_short),
    ("slip: timer 0 not 10 ms", timer_zero_changed),
    ("slip: 129 exits", too_many_exits),
    ("slip: cell in two queues", cell_in_two_queues),
    ("slip: hz 0", hz_zero),
    ("no slip: quantum longest", quantum_longest),
    ("no slip: ticks at their highest", ticks_highest),
    ("no slip: pid just below next", pid_just_below),
    ("no slip: shortest period", shortest_period),
    ("no slip: timed out", timed_out),
    ("no slip: ready in any call", ready_in_any_call),
    ("no slip: deadlines equal", deadlines_equal),
    ("no slip: any pid in an exit", any_exit_pid),
];

fn sleeping(m: &Machine, rng: &mut Random) -> Option<(usize, usize)> {
    let taken: Vec<usize> = (0..m.z.r).filter(|&r| m.sleepers[r].is_some()).collect();
    let r = rng.any(&taken)?;
    Some((r, m.sleepers[r]?))
}

fn empty_rendez(m: &Machine, rng: &mut Random) -> Option<usize> {
    let free: Vec<usize> = (0..m.z.r).filter(|&r| m.sleepers[r].is_none()).collect();
    rng.any(&free)
}

fn waited_for(m: &Machine, rng: &mut Random) -> Option<usize> {
    let waited: Vec<usize> = (0..m.z.q).filter(|&q| !m.locks[q].waiters.is_empty()).collect();
    rng.any(&waited)
}

fn ready_one(m: &Machine, rng: &mut Random) -> Option<usize> {
    if m.ready.is_empty() { None } else { Some(m.ready[rng.below(m.ready.len())]) }
}

fn living_one(m: &Machine, rng: &mut Random) -> Option<usize> {
    rng.any(&m.living())
}

fn runs_and_is_ready(m: &mut Machine, rng: &mut Random) -> Option<()> {
    m.ready.push_back(m.running?);
    if rng.percent(50) {
        m.ready.rotate_right(1);
    }
    Some(())
}

fn ready_and_sleeps(m: &mut Machine, rng: &mut Random) -> Option<()> {
    let (i, r) = (ready_one(m, rng)?, empty_rendez(m, rng)?);
    m.sleepers[r] = Some(i);
    m.process_mut(i).call = Call::Sleep { rendez: r, condition: 3 };
    m.unqueue(m.z.k + i);
    Some(())
}

fn sleeps_twice(m: &mut Machine, rng: &mut Random) -> Option<()> {
    let ((_, i), r) = (sleeping(m, rng)?, empty_rendez(m, rng)?);
    m.sleepers[r] = Some(i);
    Some(())
}

fn sleeps_and_waits(m: &mut Machine, rng: &mut Random) -> Option<()> {
    let (_, i) = sleeping(m, rng)?;
    let q = rng.below(m.z.q);
    m.locks[q].held = true;
    m.locks[q].waiters.push_back(i);
    Some(())
}

fn waits_for_two(m: &mut Machine, rng: &mut Random) -> Option<()> {
    let q = waited_for(m, rng)?;
    let others: Vec<usize> =
        (0..m.z.q).filter(|&s| s != q && m.locks[s].waiters.is_empty()).collect();
    let s = rng.any(&others)?;
    // The last of one queue is all of the other: both chains end well.
    let last = *m.locks[q].waiters.back()?;
    m.locks[s].held = true;
    m.locks[s].waiters.push_back(last);
    Some(())
}

fn on_waitr_and_rendez(m: &mut Machine, rng: &mut Random) -> Option<()> {
    let (_, i) = sleeping(m, rng)?;
    m.unqueue(m.z.k + i);
    m.process_mut(i).call = Call::Wait;
    m.on_waitr[i] = true;
    Some(())
}

/// Leaves its queue; the tag stays as the rest of the state has it.
fn in_no_place(m: &mut Machine, rng: &mut Random) -> Option<()> {
    match rng.below(3) {
        0 => m.running.take().map(|_| ()),
        1 => m.ready.pop_front().map(|_| ()),
        _ => sleeping(m, rng).map(|(r, _)| m.sleepers[r] = None),
    }
}

fn lock_not_held(m: &mut Machine, rng: &mut Random) -> Option<()> {
    let q = waited_for(m, rng)?;
    m.locks[q].held = false;
    Some(())
}

fn timers_out_of_order(m: &mut Machine, rng: &mut Random) -> Option<()> {
    let rising = |at: &usize| m.timers[*at].1 < m.timers[*at + 1].1;
    let places: Vec<usize> = (0..m.timers.len().max(1) - 1).filter(rising).collect();
    let at = rng.any(&places)?;
    m.timers.swap(at, at + 1);
    Some(())
}

fn timer_without_tsleep(m: &mut Machine, rng: &mut Random) -> Option<()> {
    let others: Vec<usize> =
        m.living().into_iter().filter(|&i| !is_tsleep(m.process(i).call)).collect();
    let i = rng.any(&others)?;
    m.queue(m.z.k + i, m.last_now + 1);
    Some(())
}

fn is_tsleep(call: Call) -> bool {
    matches!(call, Call::Tsleep { .. })
}

fn timer_of_the_dead(m: &mut Machine, rng: &mut Random) -> Option<()> {
    let i = rng.any(&m.free())?;
    m.queue(m.z.k + i, m.last_now + 1);
    Some(())
}

fn youngest(m: &Machine) -> Option<usize> {
    m.living().into_iter().max_by_key(|&i| m.process(i).pid)
}

fn next_pid_too_low(m: &mut Machine, rng: &mut Random) -> Option<()> {
    let highest = m.process(youngest(m)?).pid;
    m.next_pid = highest - rng.up_to(highest.min(2));
    Some(())
}

fn next_pid_zero(m: &mut Machine, _: &mut Random) -> Option<()> {
    m.next_pid = 0;
    Some(())
}

fn pid_twice(m: &mut Machine, rng: &mut Random) -> Option<()> {
    let (i, j) = rng.two(&m.living())?;
    m.process_mut(i).pid = m.process(j).pid;
    Some(())
}

fn own_parent(m: &mut Machine, rng: &mut Random) -> Option<()> {
    let i = living_one(m, rng)?;
    m.process_mut(i).parent = m.process(i).pid;
    Some(())
}

fn parent_younger(m: &mut Machine, rng: &mut Random) -> Option<()> {
    let (i, j) = rng.two(&m.living())?;
    let (older, younger) = if m.process(i).pid < m.process(j).pid { (i, j) } else { (j, i) };
    m.process_mut(older).parent = if rng.percent(70) { m.process(younger).pid } else { u64::MAX };
    Some(())
}

fn ticks_after_now(m: &mut Machine, _: &mut Random) -> Option<()> {
    m.unqueue(0);
    m.ticks = m.last_now + 1;
    Some(())
}

fn ticks_at_timer_zero(m: &mut Machine, rng: &mut Random) -> Option<()> {
    let deadline = m.ticks - rng.up_to(m.ticks.min(1));
    m.queue(0, deadline);
    Some(())
}

fn quantum_too_long(m: &mut Machine, rng: &mut Random) -> Option<()> {
    let i = living_one(m, rng)?;
    m.process_mut(i).quantum_end = m.ticks + 11;
    Some(())
}

fn now_too_high(m: &mut Machine, rng: &mut Random) -> Option<()> {
    m.last_now = rng.of(&[LAST_TIME + 1, LAST_TIME + 2, u64::MAX]);
    Some(())
}

fn runs_in_a_call(m: &mut Machine, rng: &mut Random) -> Option<()> {
    let i = m.running?;
    m.process_mut(i).call = rng.of(&[
        Call::Sleep { rendez: 0, condition: 0 },
        Call::Tsleep { rendez: 0, condition: 0 },
        Call::Qlock { lock: 0 },
        Call::Wait,
    ]);
    Some(())
}

fn sleeps_in_another_call(m: &mut Machine, rng: &mut Random) -> Option<()> {
    let (r, i) = sleeping(m, rng)?;
    let other = (r + 1) % m.z.r.max(2);
    m.unqueue(m.z.k + i);
    let lock = rng.below(m.z.q);
    m.process_mut(i).call = match rng.below(4) {
        0 if other < m.z.r => Call::Sleep { rendez: other, condition: 9 },
        1 if other < m.z.r => Call::Tsleep { rendez: other, condition: 9 },
        2 => Call::None,
        _ => Call::Qlock { lock },
    };
    Some(())
}

fn waits_in_another_call(m: &mut Machine, rng: &mut Random) -> Option<()> {
    let q = waited_for(m, rng)?;
    let i = m.locks[q].waiters[rng.below(m.locks[q].waiters.len())];
    let other = (q + 1) % m.z.q.max(2);
    m.process_mut(i).call = match rng.below(3) {
        0 if other < m.z.q => Call::Qlock { lock: other },
        1 => Call::None,
        _ => Call::Sleep { rendez: 0, condition: 0 },
    };
    Some(())
}

fn ready_call_out_of_range(m: &mut Machine, rng: &mut Random) -> Option<()> {
    let i = ready_one(m, rng)?;
    let (r, q) = (rng.of(&[m.z.r, m.z.r + 1, 65_535]), rng.of(&[m.z.q, m.z.q + 1, 65_535]));
    m.unqueue(m.z.k + i);
    m.process_mut(i).call = rng.of(&[
        Call::Sleep { rendez: r, condition: 0 },
        Call::Tsleep { rendez: r, condition: 0 },
        Call::Qlock { lock: q },
    ]);
    Some(())
}

/// A kernel timer other than timer 0.
fn kernel_timer(m: &Machine, rng: &mut Random) -> Option<usize> {
    if m.z.k > 1 { Some(rng.between(1, m.z.k - 1)) } else { None }
}

fn period_too_short(m: &mut Machine, rng: &mut Random) -> Option<()> {
    let (t, shortest) = (kernel_timer(m, rng)?, counts(SHORTEST, m.hz));
    if shortest < 2 {
        return None;
    }
    m.settings[t].period = rng.of(&[1, shortest - 1]);
    Some(())
}

fn timer_zero_changed(m: &mut Machine, rng: &mut Random) -> Option<()> {
    let tick = counts(TICK, m.hz);
    m.settings[0].period = rng.of(&[0, tick - 1, tick + 1, counts(SHORTEST, m.hz) + 1]);
    Some(())
}

fn too_many_exits(m: &mut Machine, rng: &mut Random) -> Option<()> {
    let i = living_one(m, rng)?;
    if m.z.c < 129 {
        return None;
    }
    while m.process(i).exits.len() < 129 {
        let Some(cell) = rng.any(&m.free_cells()) else {
            forget_exits(m, i);
            continue;
        };
        m.used_cells[cell] = true;
        m.process_mut(i).exits.push_back(Exit { cell, pid: 1, message: Vec::new() });
    }
    Some(())
}

/// The exits of all but one are forgotten, so that there are free cells.
fn forget_exits(m: &mut Machine, but: usize) {
    for i in m.living().into_iter().filter(|&i| i != but) {
        for exit in std::mem::take(&mut m.process_mut(i).exits) {
            m.used_cells[exit.cell] = false;
        }
    }
}

fn cell_in_two_queues(m: &mut Machine, rng: &mut Random) -> Option<()> {
    let (i, j) = rng.two(&m.living())?;
    let exit = m.process(i).exits.back()?.clone();
    m.process_mut(j).exits.push_back(exit);
    Some(())
}

/// No frequency; timer 0's period is right for it.
fn hz_zero(m: &mut Machine, _: &mut Random) -> Option<()> {
    m.hz = 0;
    m.settings[0].period = 0;
    Some(())
}

fn quantum_longest(m: &mut Machine, rng: &mut Random) -> Option<()> {
    let i = living_one(m, rng)?;
    m.process_mut(i).quantum_end = m.ticks + 10;
    Some(())
}

fn ticks_highest(m: &mut Machine, _: &mut Random) -> Option<()> {
    m.ticks = m.last_now;
    m.queue(0, m.ticks + 1);
    Some(())
}

fn pid_just_below(m: &mut Machine, _: &mut Random) -> Option<()> {
    m.next_pid = m.process(youngest(m)?).pid + 1;
    Some(())
}

fn shortest_period(m: &mut Machine, rng: &mut Random) -> Option<()> {
    let t = kernel_timer(m, rng)?;
    m.settings[t].period = rng.of(&[counts(SHORTEST, m.hz), (1 << 63) - 1]);
    Some(())
}

fn timed_out(m: &mut Machine, rng: &mut Random) -> Option<()> {
    let (_, i) = sleeping(m, rng)?;
    m.unqueue(m.z.k + i);
    Some(())
}

fn ready_in_any_call(m: &mut Machine, rng: &mut Random) -> Option<()> {
    let i = ready_one(m, rng)?;
    let (rendez, lock) = (m.z.r - 1, m.z.q - 1);
    let condition = rng.bits() as u8;
    m.unqueue(m.z.k + i);
    m.process_mut(i).call = rng.of(&[
        Call::None,
        Call::Sleep { rendez, condition },
        Call::Tsleep { rendez, condition },
        Call::Qlock { lock },
        Call::Wait,
    ]);
    Some(())
}

fn deadlines_equal(m: &mut Machine, _: &mut Random) -> Option<()> {
    let deadline = m.timers.back()?.1;
    m.timers.iter_mut().for_each(|timer| timer.1 = deadline);
    Some(())
}

fn any_exit_pid(m: &mut Machine, rng: &mut Random) -> Option<()> {
    let i = living_one(m, rng)?;
    let pid = rng.of(&[0, u64::MAX, m.next_pid]);
    m.process_mut(i).exits.front_mut()?.pid = pid;
    Some(())
}
