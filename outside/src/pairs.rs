//! Damages to links and counts, and pairs of damages that cancel each other.

use crate::damage::{Base, Damage, Edit};
use crate::layout::*;
use crate::machine::Call;
use crate::random::Random;

/// A damage of one kind, where it can be done.
type Pair = fn(&Base, &mut Random) -> Option<Vec<Edit>>;

fn links_to(values: Values) -> Vec<Field> {
    FIELDS.iter().copied().filter(|f| f.values == values).collect()
}

/// A link to its own record.
fn to_itself(b: &Base, rng: &mut Random) -> Option<Vec<Edit>> {
    let f = rng.of(&[NEXT, OLDER, YOUNGER, PARENT_AT, TIMER_NEXT, CELL_NEXT]);
    let i = rng.below(b.records(f));
    Some(vec![b.edit(f, i, i as u64 + 1)])
}

/// Two links to each other's record.
fn to_each_other(b: &Base, rng: &mut Random) -> Option<Vec<Edit>> {
    let f = rng.of(&[NEXT, OLDER, YOUNGER, PARENT_AT, TIMER_NEXT, CELL_NEXT]);
    let (i, j) = (rng.below(b.records(f)), rng.below(b.records(f)));
    Some(vec![b.edit(f, i, j as u64 + 1), b.edit(f, j, i as u64 + 1)])
}

/// A link as another one stands, mostly into another queue.
fn to_the_wrong_queue(b: &Base, rng: &mut Random) -> Option<Vec<Edit>> {
    let fields = links_to(rng.of(&[Values::ToRecord, Values::ToTimer, Values::ToCell]));
    let ((f, i), (g, j)) = (b.any(rng.of(&fields), rng), b.any(rng.of(&fields), rng));
    Some(vec![b.edit(f, i, b.get(g, j))])
}

/// Two links exchanged.
fn links_exchanged(b: &Base, rng: &mut Random) -> Option<Vec<Edit>> {
    let fields =
        links_to(rng.of(&[Values::ToRecord, Values::ToRecord, Values::ToTimer, Values::ToCell]));
    Some(b.exchange(b.any(rng.of(&fields), rng), b.any(rng.of(&fields), rng)))
}

/// A field of two records exchanged.
fn same_field_exchanged(b: &Base, rng: &mut Random) -> Option<Vec<Edit>> {
    let fields: Vec<Field> = FIELDS.iter().copied().filter(|f| b.records(*f) > 1).collect();
    let f = rng.of(&fields);
    Some(b.exchange(b.any(f, rng), b.any(f, rng)))
}

/// A field of two living processes exchanged.
fn living_exchanged(b: &Base, rng: &mut Random) -> Option<Vec<Edit>> {
    let fields: Vec<Field> =
        FIELDS.iter().copied().filter(|f| f.region == Region::Process).collect();
    let f = rng.of(&fields);
    let (i, j) = rng.two(&b.machine.living())?;
    Some(b.exchange((f, i), (f, j)))
}

fn count_off_by_one(b: &Base, rng: &mut Random) -> Option<Vec<Edit>> {
    let i = rng.any(&b.machine.living())?;
    let (f, i) = rng.of(&[(ASLEEP_COUNT, 0), (NCHILD, i), (NEXITS, i)]);
    let value =
        if rng.percent(50) { b.get(f, i).wrapping_add(1) } else { b.get(f, i).wrapping_sub(1) };
    Some(vec![b.edit(f, i, value)])
}

fn nchild_up_down(b: &Base, rng: &mut Random) -> Option<Vec<Edit>> {
    let (i, j) = rng.two(&b.machine.living())?;
    Some(b.up_down(NCHILD, (i, j)))
}

fn nexits_up_down(b: &Base, rng: &mut Random) -> Option<Vec<Edit>> {
    let (i, j) = rng.two(&b.machine.living())?;
    Some(b.up_down(NEXITS, (i, j)))
}

fn owners_exchanged(b: &Base, rng: &mut Random) -> Option<Vec<Edit>> {
    let (c, d) = rng.two(&b.used_cells())?;
    Some(b.exchange((OWNER, c), (OWNER, d)))
}

/// A used cell's owner goes to a free cell, its link or not.
fn owner_moved(b: &Base, rng: &mut Random) -> Option<Vec<Edit>> {
    let (used, free) = (rng.any(&b.used_cells())?, rng.any(&b.machine.free_cells())?);
    let mut edits = b.exchange((OWNER, used), (OWNER, free));
    edits.extend(b.exchange((CELL_NEXT, used), (CELL_NEXT, free)));
    drop_some(&mut edits, rng);
    Some(edits)
}

/// The pids of two that follow each other by age.
fn pids_exchanged(b: &Base, rng: &mut Random) -> Option<Vec<Edit>> {
    let mut living = b.machine.living();
    living.sort_by_key(|&i| b.machine.process(i).pid);
    let at = rng.below(living.len().max(2) - 1);
    let (&i, &j) = (living.get(at)?, living.get(at + 1)?);
    Some(b.exchange((PID, i), (PID, j)))
}

fn parents_exchanged(b: &Base, rng: &mut Random) -> Option<Vec<Edit>> {
    let (i, j) = rng.two(&b.children())?;
    let mut edits = b.exchange((PARENT_AT, i), (PARENT_AT, j));
    if rng.percent(50) {
        edits.extend(b.exchange((PARENT, i), (PARENT, j)));
    }
    if rng.percent(20) {
        edits.drain(..2);
    }
    Some(edits)
}

/// Two sleepers change places; where all four fields change and both sleep
/// alike, nothing is wrong.
fn sleepers_exchanged(b: &Base, rng: &mut Random) -> Option<Vec<Edit>> {
    let taken: Vec<usize> = (0..b.z.r).filter(|&r| b.machine.sleepers[r].is_some()).collect();
    let (r, s) = rng.two(&taken)?;
    let (i, j) = (b.machine.sleepers[r]?, b.machine.sleepers[s]?);
    let mut edits = b.exchange((SLEEPER_OF, r), (SLEEPER_OF, s));
    edits.extend(b.exchange((RESUME_OBJECT, i), (RESUME_OBJECT, j)));
    drop_some(&mut edits, rng);
    Some(edits)
}

fn drop_some(edits: &mut Vec<Edit>, rng: &mut Random) {
    if rng.percent(50) && edits.len() > 1 {
        edits.remove(rng.below(edits.len()));
    }
}

/// A sleeper to a Rendez where nobody sleeps.
fn sleeper_moved(b: &Base, rng: &mut Random) -> Option<Vec<Edit>> {
    let is_taken = |r: &usize| b.machine.sleepers[*r].is_some();
    let (taken, free): (Vec<usize>, Vec<usize>) = (0..b.z.r).partition(is_taken);
    let (from, to) = (rng.any(&taken)?, rng.any(&free)?);
    let i = b.machine.sleepers[from]?;
    let mut edits = b.exchange((SLEEPER_OF, from), (SLEEPER_OF, to));
    edits.push(b.edit(RESUME_OBJECT, i, to as u64));
    drop_some(&mut edits, rng);
    Some(edits)
}

fn deadlines_exchanged(b: &Base, rng: &mut Random) -> Option<Vec<Edit>> {
    let (t, u) = rng.two(&b.queued())?;
    Some(b.exchange((DEADLINE, t), (DEADLINE, u)))
}

/// One timer's mark taken, one's given.
fn is_queued_moved(b: &Base, rng: &mut Random) -> Option<Vec<Edit>> {
    let (t, u) = (rng.any(&b.queued())?, rng.any(&b.not_queued())?);
    Some(b.exchange((IS_QUEUED, t), (IS_QUEUED, u)))
}

/// One bit of the words taken, one given.
fn bit_moved(b: &Base, rng: &mut Random) -> Option<Vec<Edit>> {
    let (f, n) = rng.of(&[(USED_RECORDS, b.z.p), (USED_CELLS, b.z.c)]);
    let bit = |n: usize| b.get(f, n / 64) >> (n % 64) & 1 == 1;
    let most = (n + 3).min(64 * b.records(f));
    let (ones, zeros): (Vec<usize>, Vec<usize>) = (0..most).partition(|&n| bit(n));
    let (one, zero) = (rng.any(&ones)?, rng.any(&zeros)?);
    let without = b.edit(f, one / 64, b.get(f, one / 64) ^ 1 << (one % 64));
    let old = if one / 64 == zero / 64 { without.value } else { b.get(f, zero / 64) };
    Some(vec![without, b.edit(f, zero / 64, old ^ 1 << (zero % 64))])
}

/// Two wait queues change their records: heads, counts and every owner.
fn wait_queues_exchanged(b: &Base, rng: &mut Random) -> Option<Vec<Edit>> {
    let (i, j) = rng.two(&b.machine.living())?;
    let mut edits = b.exchange((EXITS, i), (EXITS, j));
    if rng.percent(80) {
        edits.extend(b.exchange((NEXITS, i), (NEXITS, j)));
    }
    for (from, to) in [(i, j), (j, i)] {
        if rng.percent(80) {
            let cells = b.machine.process(from).exits.iter().map(|exit| exit.cell);
            edits.extend(cells.map(|c| b.edit(OWNER, c, to as u64 + 1)));
        }
    }
    drop_some(&mut edits, rng);
    Some(edits)
}

/// Two wait queues change what follows their heads.
fn wait_queues_crossed(b: &Base, rng: &mut Random) -> Option<Vec<Edit>> {
    let having = b.living_such(|i| !b.machine.process(i).exits.is_empty());
    let (i, j) = rng.two(&having)?;
    let cell = |i: usize| b.machine.process(i).exits[0].cell;
    Some(b.exchange((CELL_NEXT, cell(i)), (CELL_NEXT, cell(j))))
}

/// The first of a lock's waiters leaves its queue and becomes the last of the
/// run queue; what else that changes is put right or not.
fn waiter_to_run_queue(b: &Base, rng: &mut Random) -> Option<Vec<Edit>> {
    let q = rng.any(&b.locks_such(1))?;
    let i = b.machine.locks[q].waiters[0];
    let me = i as u64 + 1;
    let mut edits =
        vec![b.edit(LOCK_HEAD, q, b.get(NEXT, i)), b.edit(NEXT, i, 0), b.edit(RUN_TAIL, 0, me)];
    match b.machine.ready.back() {
        Some(&last) => edits.push(b.edit(NEXT, last, me)),
        None => edits.push(b.edit(RUN_HEAD, 0, me)),
    }
    if b.machine.locks[q].waiters.len() == 1 {
        edits.push(b.edit(LOCK_TAIL, q, 0));
    }
    edits.push(b.edit(STATE_OF, i, 2));
    edits.push(b.edit(ASLEEP_COUNT, 0, b.get(ASLEEP_COUNT, 0).wrapping_sub(1)));
    drop_some(&mut edits, rng);
    drop_some(&mut edits, rng);
    Some(edits)
}

/// The first of the run queue becomes the last of a lock's waiters.
fn ready_to_lock(b: &Base, rng: &mut Random) -> Option<Vec<Edit>> {
    let i = *b.machine.ready.front()?;
    let (q, me) = (rng.below(b.z.q), i as u64 + 1);
    let mut edits =
        vec![b.edit(RUN_HEAD, 0, b.get(NEXT, i)), b.edit(NEXT, i, 0), b.edit(LOCK_TAIL, q, me)];
    match b.machine.locks[q].waiters.back() {
        Some(&last) => edits.push(b.edit(NEXT, last, me)),
        None => edits.push(b.edit(LOCK_HEAD, q, me)),
    }
    if b.machine.ready.len() == 1 {
        edits.push(b.edit(RUN_TAIL, 0, 0));
    }
    edits.push(b.edit(STATE_OF, i, 3));
    edits.push(b.edit(ASLEEP_COUNT, 0, b.get(ASLEEP_COUNT, 0) + 1));
    edits.push(b.edit(RESUME_KIND, i, 3));
    edits.push(b.edit(RESUME_OBJECT, i, q as u64));
    edits.push(b.edit(HELD, q, 1));
    edits.push(b.edit(IS_QUEUED, b.z.k + i, 0));
    drop_some(&mut edits, rng);
    drop_some(&mut edits, rng);
    Some(edits)
}

/// Two locks change their queues; the waiters name the other lock, or not.
fn lock_queues_exchanged(b: &Base, rng: &mut Random) -> Option<Vec<Edit>> {
    let (q, s) = rng.two(&(0..b.z.q).collect::<Vec<usize>>())?;
    let mut edits = Vec::new();
    for f in [LOCK_HEAD, LOCK_TAIL, HELD] {
        edits.extend(b.exchange((f, q), (f, s)));
    }
    if rng.percent(60) {
        for (from, to) in [(q, s), (s, q)] {
            let waiters = b.machine.locks[from].waiters.iter();
            edits.extend(waiters.map(|&i| b.edit(RESUME_OBJECT, i, to as u64)));
        }
    }
    drop_some(&mut edits, rng);
    Some(edits)
}

/// Two queues of records change what follows their heads.
fn queues_crossed(b: &Base, rng: &mut Random) -> Option<Vec<Edit>> {
    let mut heads: Vec<usize> =
        b.locks_such(1).into_iter().map(|q| b.machine.locks[q].waiters[0]).collect();
    heads.extend(b.machine.ready.front());
    let (i, j) = rng.two(&heads)?;
    Some(b.exchange((NEXT, i), (NEXT, j)))
}

/// The head of a queue is lost.
fn head_lost(b: &Base, rng: &mut Random) -> Option<Vec<Edit>> {
    let mut ways = Vec::new();
    if let Some(&i) = b.machine.ready.front() {
        ways.push(vec![b.edit(RUN_HEAD, 0, b.get(NEXT, i))]);
    }
    if let Some(q) = rng.any(&b.locks_such(1)) {
        let next = b.get(NEXT, b.machine.locks[q].waiters[0]);
        let count = b.get(ASLEEP_COUNT, 0).wrapping_sub(1);
        ways.push(vec![b.edit(LOCK_HEAD, q, next), b.edit(ASLEEP_COUNT, 0, count)]);
    }
    if let Some(&(t, _)) = b.machine.timers.front() {
        ways.push(vec![
            b.edit(TIMER_HEAD, 0, b.get(TIMER_NEXT, t)),
            b.edit(IS_QUEUED, t, rng.up_to(1)),
            b.edit(TIMER_NEXT, t, 0),
        ]);
    }
    if let Some(i) = rng.any(&b.living_such(|i| !b.machine.process(i).exits.is_empty())) {
        let c = b.machine.process(i).exits[0].cell;
        let fewer = b.get(NEXITS, i) - 1;
        ways.push(vec![
            b.edit(EXITS, i, b.get(CELL_NEXT, c)),
            b.edit(NEXITS, i, fewer),
            b.edit(OWNER, c, 0),
            b.edit(CELL_NEXT, c, 0),
        ]);
    }
    let way = rng.below(ways.len().max(1));
    ways.get(way).cloned()
}

/// The tags of two living processes exchanged, and a count to match.
fn tags_exchanged(b: &Base, rng: &mut Random) -> Option<Vec<Edit>> {
    let (i, j) = rng.two(&b.machine.living())?;
    let mut edits = b.exchange((STATE_OF, i), (STATE_OF, j));
    if rng.percent(50) {
        edits.extend(b.exchange((RESUME_KIND, i), (RESUME_KIND, j)));
    }
    Some(edits)
}

/// Somebody asleep is said to be ready, and counted so.
fn sleeper_called_ready(b: &Base, rng: &mut Random) -> Option<Vec<Edit>> {
    let i = rng.any(&b.living_such(|i| b.get(STATE_OF, i) == 3))?;
    let fewer = b.get(ASLEEP_COUNT, 0).wrapping_sub(1);
    Some(vec![b.edit(STATE_OF, i, rng.up_to(2)), b.edit(ASLEEP_COUNT, 0, fewer)])
}

/// Two by age change places: their links and those to them.
fn ages_exchanged(b: &Base, rng: &mut Random) -> Option<Vec<Edit>> {
    let mut living = b.machine.living();
    living.sort_by_key(|&i| b.machine.process(i).pid);
    let at = rng.below(living.len().max(2) - 1);
    let (&i, &j) = (living.get(at)?, living.get(at + 1)?);
    let (me, you) = (i as u64 + 1, j as u64 + 1);
    let (before, after) = (b.get(OLDER, i), b.get(YOUNGER, j));
    let mut edits = vec![b.edit(OLDER, j, before), b.edit(YOUNGER, j, me)];
    edits.extend([b.edit(OLDER, i, you), b.edit(YOUNGER, i, after)]);
    edits.push(match before {
        0 => b.edit(OLDEST, 0, you),
        o => b.edit(YOUNGER, o as usize - 1, you),
    });
    edits.push(match after {
        0 => b.edit(YOUNGEST, 0, me),
        y => b.edit(OLDER, y as usize - 1, me),
    });
    if rng.percent(50) {
        edits.extend(b.exchange((PID, i), (PID, j)));
    }
    drop_some(&mut edits, rng);
    Some(edits)
}

/// A tsleeper's timer leaves the queue's end or its mark stays alone.
fn last_timer_cut(b: &Base, rng: &mut Random) -> Option<Vec<Edit>> {
    let queued = b.queued();
    let (&last, &before) = (queued.last()?, queued.get(queued.len().checked_sub(2)?)?);
    let mut edits = vec![b.edit(TIMER_NEXT, before, 0), b.edit(IS_QUEUED, last, 0)];
    drop_some(&mut edits, rng);
    Some(edits)
}

/// A process in a call becomes one in another call.
fn call_changed(b: &Base, rng: &mut Random) -> Option<Vec<Edit>> {
    let i = rng.any(&b.living_such(|i| b.machine.process(i).call != Call::None))?;
    let mut edits = vec![b.edit(RESUME_KIND, i, rng.up_to(4))];
    if rng.percent(30) {
        edits.push(b.edit(RESUME_OBJECT, i, rng.up_to(3)));
    }
    Some(edits)
}

/// A free record stands in a place, mostly as if it lived, and is counted there.
fn free_in_a_place(b: &Base, rng: &mut Random) -> Option<Vec<Edit>> {
    let i = rng.any(&b.machine.free())?;
    let (r, q, me) = (rng.below(b.z.r), rng.below(b.z.q), i as u64 + 1);
    let way = rng.below(5);
    let mut edits = match way {
        0 => vec![b.edit(RESUME_KIND, i, 4)],
        1 => vec![
            b.edit(SLEEPER_OF, r, me),
            b.edit(RESUME_KIND, i, 1),
            b.edit(RESUME_OBJECT, i, r as u64),
        ],
        2 => vec![b.edit(UP, 0, me), b.edit(RESUME_KIND, i, 0)],
        3 => vec![b.edit(RUN_HEAD, 0, me), b.edit(NEXT, i, b.get(RUN_HEAD, 0))],
        _ => {
            vec![b.edit(LOCK_HEAD, q, me), b.edit(NEXT, i, b.get(LOCK_HEAD, q)), b.edit(HELD, q, 1)]
        }
    };
    let taken = (way == 1 && b.get(SLEEPER_OF, r) != 0) || (way == 2 && b.get(UP, 0) != 0);
    if way == 3 && b.machine.ready.is_empty() {
        edits.push(b.edit(RUN_TAIL, 0, me));
    }
    if way == 4 {
        edits.extend([b.edit(RESUME_KIND, i, 3), b.edit(RESUME_OBJECT, i, q as u64)]);
        if b.machine.locks[q].waiters.is_empty() {
            edits.push(b.edit(LOCK_TAIL, q, me));
        }
    }
    let tag = [3, 3, 1, 2, 3][way];
    if rng.percent(60) {
        edits.push(b.edit(STATE_OF, i, tag));
    }
    if tag == 3 && rng.percent(80) {
        edits.push(b.edit(ASLEEP_COUNT, 0, b.get(ASLEEP_COUNT, 0) + 1));
    }
    if taken { None } else { Some(edits) }
}

/// A free record takes a living one's wait queue, or its cells alone.
fn wait_queue_of_the_free(b: &Base, rng: &mut Random) -> Option<Vec<Edit>> {
    let i = rng.any(&b.living_such(|i| !b.machine.process(i).exits.is_empty()))?;
    let j = rng.any(&b.machine.free())?;
    let mut edits = vec![b.edit(EXITS, i, 0), b.edit(NEXITS, i, 0)];
    if rng.percent(50) {
        edits.extend([b.edit(EXITS, j, b.get(EXITS, i)), b.edit(NEXITS, j, b.get(NEXITS, i))]);
    }
    let cells = b.machine.process(i).exits.iter().map(|exit| exit.cell);
    edits.extend(cells.map(|c| b.edit(OWNER, c, j as u64 + 1)));
    Some(edits)
}

/// Somebody is left out of the ages, a free record stands there as the oldest, or both.
fn ages_of_others(b: &Base, rng: &mut Random) -> Option<Vec<Edit>> {
    let mut ages = b.machine.living();
    ages.sort_by_key(|&i| b.machine.process(i).pid);
    let way = rng.below(3);
    if way != 0 && !ages.is_empty() {
        ages.remove(rng.below(ages.len()));
    }
    if way != 1 {
        ages.insert(0, rng.any(&b.machine.free())?);
    }
    let link = |i: Option<&usize>| i.map_or(0, |&i| i as u64 + 1);
    let mut edits =
        vec![b.edit(OLDEST, 0, link(ages.first())), b.edit(YOUNGEST, 0, link(ages.last()))];
    for (n, &i) in ages.iter().enumerate() {
        edits.push(b.edit(YOUNGER, i, link(ages.get(n + 1))));
        edits.push(b.edit(OLDER, i, link(ages[..n].last())));
    }
    Some(edits)
}

/// A child's link leads away from its living parent, which counts one child less.
fn parent_forgotten(b: &Base, rng: &mut Random) -> Option<Vec<Edit>> {
    let i = rng.any(&b.children())?;
    let parent = b.machine.record_of(b.machine.process(i).parent)?;
    let fewer = b.get(NCHILD, parent).wrapping_sub(1);
    Some(vec![b.edit(PARENT_AT, i, rng.up_to(b.z.p as u64)), b.edit(NCHILD, parent, fewer)])
}

/// A child gets another living parent; the counts are right, the link is or is not.
fn parent_changed(b: &Base, rng: &mut Random) -> Option<Vec<Edit>> {
    let i = rng.any(&b.children())?;
    let from = b.machine.record_of(b.machine.process(i).parent)?;
    let to = rng.any(&b.living_such(|j| j != i && j != from))?;
    let mut edits = b.up_down(NCHILD, (to, from));
    edits.push(b.edit(PARENT, i, b.get(PID, to)));
    if rng.percent(50) {
        edits.push(b.edit(PARENT_AT, i, to as u64 + 1));
    }
    Some(edits)
}

/// One sleeper on two Rendez, and one on none: as many as before.
fn sleeper_for_another(b: &Base, rng: &mut Random) -> Option<Vec<Edit>> {
    let taken: Vec<usize> = (0..b.z.r).filter(|&r| b.machine.sleepers[r].is_some()).collect();
    let (r, s) = rng.two(&taken)?;
    let mut edits = vec![b.edit(SLEEPER_OF, s, b.get(SLEEPER_OF, r))];
    if rng.percent(50) {
        edits.push(b.edit(RESUME_OBJECT, b.machine.sleepers[r]?, s as u64));
    }
    Some(edits)
}

/// The queues of records: who is in them, and where the tail is.
fn queues(b: &Base) -> Vec<(Vec<usize>, Field, usize)> {
    let mut queues = vec![(b.machine.ready.iter().copied().collect(), RUN_TAIL, 0)];
    for q in b.locks_such(1) {
        queues.push((b.machine.locks[q].waiters.iter().copied().collect(), LOCK_TAIL, q));
    }
    queues
}

/// The last of one queue stands last in another as well, for the one who was there.
fn waiter_for_another(b: &Base, rng: &mut Random) -> Option<Vec<Edit>> {
    let queues = queues(b);
    let long: Vec<usize> = (0..queues.len()).filter(|&n| queues[n].0.len() > 1).collect();
    let here = rng.any(&long)?;
    let others: Vec<usize> =
        (0..queues.len()).filter(|&n| n != here && !queues[n].0.is_empty()).collect();
    let last = *queues[rng.any(&others)?].0.last()? as u64 + 1;
    let (members, tail, q) = &queues[here];
    Some(vec![b.edit(NEXT, members[members.len() - 2], last), b.edit(*tail, *q, last)])
}

/// The last cell of one wait queue stands last in another as well.
fn cell_for_another(b: &Base, rng: &mut Random) -> Option<Vec<Edit>> {
    let (i, j) = rng.two(&b.living_such(|i| b.machine.process(i).exits.len() > 1))?;
    let (mine, yours) = (&b.machine.process(i).exits, &b.machine.process(j).exits);
    let last = yours.back()?.cell;
    let mut edits = vec![b.edit(CELL_NEXT, mine[mine.len() - 2].cell, last as u64 + 1)];
    if rng.percent(50) {
        edits.push(b.edit(OWNER, last, i as u64 + 1));
    }
    Some(edits)
}

/// A free record has a link.
fn free_next_left_over(b: &Base, rng: &mut Random) -> Option<Vec<Edit>> {
    let i = rng.any(&b.machine.free())?;
    Some(vec![b.edit(NEXT, i, 1 + rng.below(b.z.p) as u64)])
}

/// A free record has a neighbour in age, an exit or a count of them.
fn free_record_left_over(b: &Base, rng: &mut Random) -> Option<Vec<Edit>> {
    let (f, i) = (rng.of(&[OLDER, YOUNGER, EXITS, NEXITS]), rng.any(&b.machine.free())?);
    Some(vec![b.edit(f, i, 1 + rng.up_to(f.highest(b.z) - 1))])
}

/// A free cell has a link.
fn free_cell_left_over(b: &Base, rng: &mut Random) -> Option<Vec<Edit>> {
    let c = rng.any(&b.machine.free_cells())?;
    Some(vec![b.edit(CELL_NEXT, c, 1 + rng.below(b.z.c) as u64)])
}

/// A timer that is not queued has a link.
fn timer_left_over(b: &Base, rng: &mut Random) -> Option<Vec<Edit>> {
    let t = rng.any(&b.not_queued())?;
    Some(vec![b.edit(TIMER_NEXT, t, 1 + rng.below(b.z.k + b.z.p) as u64)])
}

/// Somebody without a parent names the record of one.
fn parent_left_over(b: &Base, rng: &mut Random) -> Option<Vec<Edit>> {
    let i = rng.any(&b.living_such(|i| b.get(PARENT, i) == 0))?;
    Some(vec![b.edit(PARENT_AT, i, 1 + rng.below(b.z.p) as u64)])
}

/// Somebody in no queue has a link.
fn next_left_over(b: &Base, rng: &mut Random) -> Option<Vec<Edit>> {
    let is_waiter = |i| b.get(STATE_OF, i) == 3 && b.get(RESUME_KIND, i) == 3;
    let i = rng.any(&b.living_such(|i| b.get(STATE_OF, i) != 2 && !is_waiter(i)))?;
    Some(vec![b.edit(NEXT, i, 1 + rng.below(b.z.p) as u64)])
}

/// A call without an object has one, mostly one that there is.
fn object_left_over(b: &Base, rng: &mut Random) -> Option<Vec<Edit>> {
    let i = rng.any(&b.living_such(|i| matches!(b.get(RESUME_KIND, i), 0 | 4)))?;
    let object = rng.of(&[1, b.z.r - 1, b.z.q - 1, 256, 65_535]).max(1);
    Some(vec![b.edit(RESUME_OBJECT, i, object as u64)])
}

/// A call without a condition has one.
fn condition_left_over(b: &Base, rng: &mut Random) -> Option<Vec<Edit>> {
    let i = rng.any(&b.living_such(|i| matches!(b.get(RESUME_KIND, i), 0 | 3 | 4)))?;
    Some(vec![b.edit(RESUME_CONDITION, i, rng.of(&[1, 128, 255]))])
}

/// Object and condition in a free record, where they mean nothing.
fn free_left_over(b: &Base, rng: &mut Random) -> Option<Vec<Edit>> {
    let i = rng.any(&b.machine.free())?;
    let (object, condition) = (rng.up_to(65_535), rng.up_to(255));
    Some(vec![b.edit(RESUME_OBJECT, i, object), b.edit(RESUME_CONDITION, i, condition)])
}

const LINKS: &[(&str, Pair)] = &[
    ("link: to itself", to_itself),
    ("link: to each other", to_each_other),
    ("link: to the wrong queue", to_the_wrong_queue),
    ("link: two exchanged", links_exchanged),
    ("count: off by one", count_off_by_one),
    ("left over: next", next_left_over),
    ("left over: next of a free record", free_next_left_over),
    ("left over: parentAt", parent_left_over),
    ("left over: resumeObject", object_left_over),
    ("left over: resumeCondition", condition_left_over),
    ("left over: in a free record", free_record_left_over),
    ("left over: in a free cell", free_cell_left_over),
    ("left over: in a timer", timer_left_over),
    ("free: call", free_left_over),
    ("pair: same field exchanged", same_field_exchanged),
    ("pair: field of living exchanged", living_exchanged),
    ("pair: nchild up and down", nchild_up_down),
    ("pair: nexits up and down", nexits_up_down),
    ("pair: owners exchanged", owners_exchanged),
    ("pair: owner moved", owner_moved),
    ("pair: pids exchanged", pids_exchanged),
    ("pair: parents exchanged", parents_exchanged),
    ("pair: sleepers exchanged", sleepers_exchanged),
    ("pair: sleeper moved", sleeper_moved),
    ("pair: deadlines exchanged", deadlines_exchanged),
    ("pair: isQueued moved", is_queued_moved),
    ("pair: bit moved", bit_moved),
    ("pair: wait queues exchanged", wait_queues_exchanged),
    ("pair: wait queues crossed", wait_queues_crossed),
    ("pair: waiter to run queue", waiter_to_run_queue),
    ("pair: ready to lock", ready_to_lock),
    ("pair: lock queues exchanged", lock_queues_exchanged),
    ("pair: queues crossed", queues_crossed),
    ("pair: head lost", head_lost),
    ("pair: tags exchanged", tags_exchanged),
    ("pair: sleeper called ready", sleeper_called_ready),
    ("pair: ages exchanged", ages_exchanged),
    ("pair: last timer cut", last_timer_cut),
    ("pair: call changed", call_changed),
    ("pair: parent forgotten", parent_forgotten),
    ("pair: parent changed", parent_changed),
    ("pair: one sleeper for another", sleeper_for_another),
    ("pair: one waiter for another", waiter_for_another),
    ("pair: one cell for another", cell_for_another),
    ("pair: free record in a place", free_in_a_place),
    ("pair: wait queue of a free record", wait_queue_of_the_free),
    ("pair: ages of others", ages_of_others),
];

/// Each kind of damage to links, counts and pairs, `times` times where it can be done.
pub fn links_and_pairs(b: &Base, times: usize, rng: &mut Random) -> Vec<Damage> {
    let mut damages = Vec::new();
    for &(kind, make) in LINKS {
        for _ in 0..times {
            damages.extend(make(b, rng).map(|edits| Damage { kind, edits }));
        }
    }
    damages
}
