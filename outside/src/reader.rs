//! When are bytes a state?  An own reading of docs/MACHINE.md, "Well-formed
//! states", and of the rules of docs/STATE.md, written from these two alone
//! (and items 15 to 17 of docs/DECISIONS.md, which say why).  Every rule is a
//! function that looks at the whole state and at nothing that another rule
//! found.  What is quoted after the name of a clause is docs/MACHINE.md.

use crate::layout::*;

/// A rule: what it is called, and whether it holds.
pub struct Rule {
    pub name: &'static str,
    holds: fn(&State) -> bool,
}

const fn rule(name: &'static str, holds: fn(&State) -> bool) -> Rule {
    Rule { name, holds }
}

/// The rules, after the first two: those need no state in range.  A rule of
/// docs/STATE.md is called by its number, a clause of docs/MACHINE.md,
/// "Well-formed states": its name begins with `machine`.
const RULES: [Rule; 40] = [
    rule("rule 2: mark", mark),
    rule("rule 3: run queue", run_queue),
    rule("rule 3: lock queues", lock_queues),
    rule("rule 3: timer queue", timer_queue),
    rule("rule 3: isQueued", is_queued),
    rule("rule 3: asleepCount", asleep_count),
    rule("rule 4: tags", tags),
    rule("rule 5: chains of exits", chains_of_exits),
    rule("rule 5: owners", owners),
    rule("rule 6: linked by age", linked_by_age),
    rule("rule 6: pids rise", pids_rise),
    rule("rule 7: parents", parents),
    rule("rule 7: no parent", no_parent),
    rule("rule 8: record words", record_words),
    rule("rule 8: fullRecords", full_records),
    rule("rule 8: cell words", cell_words),
    rule("rule 8: full words", full_words),
    rule("rule 8: fullCells", full_cells),
    rule("rule 11: next", next_of_the_unqueued),
    rule("rule 11: resumeObject", object_of_no_call),
    rule("rule 11: resumeCondition", condition_of_no_sleep),
    rule("rule 12: free records", free_records),
    rule("rule 12: free cells", free_cells),
    rule("rule 12: timers not queued", timers_not_queued),
    rule("machine: last NOW in range", last_now_in_range),
    rule("machine: next pid in range", next_pid_in_range),
    rule("machine: objects of calls in range", objects_in_range),
    rule("machine: periods in range", periods_in_range),
    rule("machine: timer 0 is 10 ms", timer_zero_is_the_clock),
    rule("machine: one place", one_place),
    rule("machine: calls fit places", calls_fit_places),
    rule("machine: timers by deadline", timers_by_deadline),
    rule("machine: nchild", nchild),
    rule("machine: cells in one queue", cells_in_one_queue),
    rule("machine: pids differ, below the next", pids_differ),
    rule("machine: parent below child", parent_below_child),
    rule("machine: timer queued in tsleep only", timer_in_tsleep_only),
    rule("machine: lock with waiters is held", waited_for_is_held),
    rule("machine: ticks", ticks_in_time),
    rule("machine: quantum_end", quantum_end),
];

/// How many rules there are, with the first two.
pub const COUNT: usize = RULES.len() + 2;

pub fn rule_name(i: usize) -> &'static str {
    match i {
        0 => "rule 1: sizes and length",
        1 => "rule 1: fields in range",
        _ => RULES[i - 2].name,
    }
}

/// Rules that cannot be broken alone.  Who is in no place or in two breaks the
/// tags, or has a call that fits one place at most; a cell in two queues has
/// one owner.
pub fn is_implied(i: usize) -> bool {
    matches!(rule_name(i), "machine: one place" | "machine: cells in one queue")
}

/// Are these bytes a state?
pub fn well_formed(bytes: &[u8]) -> bool {
    broken(bytes) == 0
}

/// The rules that do not hold, a bit for each.  Where one of the first two
/// does not, the others are not looked at.
pub fn broken(bytes: &[u8]) -> u64 {
    let Some(kept) = Kept::read(bytes) else { return 1 };
    if !fields_in_range(&kept) {
        return 2;
    }
    let state = State::find(kept);
    let mut broken = 0;
    for (i, rule) in RULES.iter().enumerate() {
        broken |= u64::from(!(rule.holds)(&state)) << (i + 2);
    }
    broken
}

/// The names of the rules in such a number.
pub fn names(broken: u64) -> Vec<&'static str> {
    (0..COUNT).filter(|i| broken >> i & 1 == 1).map(rule_name).collect()
}

/// Bytes with sizes in range that are long enough for them.
pub struct Kept<'a> {
    bytes: &'a [u8],
    pub z: Sizes,
    begins: [usize; REGIONS.len()],
}

impl<'a> Kept<'a> {
    /// Rule 1: "The sizes are in their ranges, the buffer is long enough."
    pub fn read(bytes: &'a [u8]) -> Option<Kept<'a>> {
        if bytes.len() < Region::Header.bytes_each() {
            return None;
        }
        let z = header_sizes(bytes);
        let hz = number(bytes, HZ.offset, HZ.width);
        if !sizes_in_range(z) || hz == 0 || bytes.len() < total(z) {
            return None;
        }
        Some(Kept { bytes, z, begins: REGIONS.map(|region| region.begins(z)) })
    }

    pub fn get(&self, f: Field, i: usize) -> u64 {
        let at = self.begins[f.region as usize] + i * f.region.bytes_each() + f.offset;
        number(self.bytes, at, f.width)
    }

    /// A field of the header.
    pub fn header(&self, f: Field) -> u64 {
        self.get(f, 0)
    }

    /// The number that a link names.
    pub fn link(&self, f: Field, i: usize) -> Option<usize> {
        linked(self.get(f, i))
    }

    pub fn name(&self, i: usize) -> &[u8] {
        let at = self.begins[Region::Name as usize] + 28 * i;
        &self.bytes[at..at + 28]
    }

    pub fn message(&self, c: usize) -> &[u8] {
        let at = self.begins[Region::Message as usize] + 127 * c;
        &self.bytes[at..at + self.get(MESSAGE_LENGTH, c) as usize]
    }
}

/// "A link is 0 for none and i + 1 for number i."
fn linked(link: u64) -> Option<usize> {
    link.checked_sub(1).map(|i| i as usize)
}

fn header_sizes(bytes: &[u8]) -> Sizes {
    let size = |f: Field| number(bytes, f.offset, f.width) as usize;
    Sizes {
        p: size(SIZE_PROCESSES),
        r: size(SIZE_RENDEZ),
        q: size(SIZE_LOCKS),
        k: size(SIZE_TIMERS),
        c: size(SIZE_CELLS),
    }
}

/// In range: docs/MACHINE.md, "Sizes".
pub fn sizes_in_range(z: Sizes) -> bool {
    [z.p, z.r, z.q, z.k].iter().all(|n| (1..=4_096).contains(n)) && (1..=65_000).contains(&z.c)
}

/// Rule 1: "Every field is in its range, in free records and cells too."
fn fields_in_range(k: &Kept) -> bool {
    FIELDS.iter().all(|f| {
        let highest = f.highest(k.z);
        highest == f.ones() || (0..f.region.records(k.z)).all(|i| k.get(*f, i) <= highest)
    })
}

/// What is found on the way from a head along links.
#[derive(Default)]
struct Walk {
    members: Vec<usize>,
    ends: bool,
}

/// Walks over at most `most` members.  Links that end have none twice.
fn walk(head: Option<usize>, most: usize, next: impl Fn(usize) -> Option<usize>) -> Walk {
    let mut found = Walk::default();
    let mut at = head;
    while let Some(i) = at {
        if found.members.len() == most {
            return found;
        }
        found.members.push(i);
        at = next(i);
    }
    found.ends = true;
    found
}

impl Walk {
    fn last(&self) -> Option<usize> {
        self.members.last().copied()
    }
}

/// A place where a process may be.
#[derive(Clone, Copy, PartialEq, Eq)]
enum Place {
    Running,
    Ready,
    OnRendez(usize),
    OnWaitr,
    InLock(usize),
}

impl Place {
    fn is_asleep(self) -> bool {
        !matches!(self, Place::Running | Place::Ready)
    }
}

/// A state with what its links lead to.
struct State<'a> {
    kept: Kept<'a>,
    z: Sizes,
    pids: Vec<u64>,
    parents: Vec<u64>,
    run: Walk,
    locks: Vec<Walk>,
    timers: Walk,
    ages: Walk,
    exits: Vec<Walk>,
    places: Vec<Vec<Place>>,
}

const FREE: u64 = 0;
const RUNNING: u64 = 1;
const READY: u64 = 2;
const ASLEEP: u64 = 3;

const NO_CALL: u64 = 0;
const SLEEP: u64 = 1;
const TSLEEP: u64 = 2;
const QLOCK: u64 = 3;
const WAIT: u64 = 4;

impl<'a> State<'a> {
    fn find(kept: Kept<'a>) -> State<'a> {
        let z = kept.z;
        let next = |i| kept.link(NEXT, i);
        let run = walk(kept.link(RUN_HEAD, 0), z.p, next);
        let locks = (0..z.q).map(|q| walk(kept.link(LOCK_HEAD, q), z.p, next)).collect();
        let timers = walk(kept.link(TIMER_HEAD, 0), z.k + z.p, |t| kept.link(TIMER_NEXT, t));
        let ages = walk(kept.link(OLDEST, 0), z.p, |i| kept.link(YOUNGER, i));
        let pids = (0..z.p).map(|i| kept.get(PID, i)).collect();
        let parents = (0..z.p).map(|i| kept.get(PARENT, i)).collect();
        let (exits, places) = (Vec::new(), Vec::new());
        let mut state = State { kept, z, pids, parents, run, locks, timers, ages, exits, places };
        state.exits = (0..z.p).map(|i| state.exits_of(i)).collect();
        state.places = state.find_places();
        state
    }

    /// The chain of a used record's exits, walked as far as the longest one.
    fn exits_of(&self, i: usize) -> Walk {
        let head = if self.used(i) { self.kept.link(EXITS, i) } else { None };
        walk(head, 129, |c| self.kept.link(CELL_NEXT, c))
    }

    /// For each record, the places where it is found.
    fn find_places(&self) -> Vec<Vec<Place>> {
        let mut places = vec![Vec::new(); self.z.p];
        if let Some(i) = self.kept.link(UP, 0) {
            places[i].push(Place::Running);
        }
        for &i in &self.run.members {
            places[i].push(Place::Ready);
        }
        for r in 0..self.z.r {
            if let Some(i) = self.kept.link(SLEEPER_OF, r) {
                places[i].push(Place::OnRendez(r));
            }
        }
        for (q, lock) in self.locks.iter().enumerate() {
            for &i in &lock.members {
                places[i].push(Place::InLock(q));
            }
        }
        for (i, place) in places.iter_mut().enumerate() {
            // Nothing links who sleeps on its own waitr: the tag and the call say it.
            if self.tag(i) == ASLEEP && self.call(i) == WAIT {
                place.push(Place::OnWaitr);
            }
        }
        places
    }

    fn used(&self, i: usize) -> bool {
        self.pids[i] != 0
    }

    fn living(&self) -> impl Iterator<Item = usize> + '_ {
        (0..self.z.p).filter(|&i| self.used(i))
    }

    fn tag(&self, i: usize) -> u64 {
        self.kept.get(STATE_OF, i)
    }

    fn call(&self, i: usize) -> u64 {
        self.kept.get(RESUME_KIND, i)
    }

    fn object(&self, i: usize) -> usize {
        self.kept.get(RESUME_OBJECT, i) as usize
    }

    fn is_timer_queued(&self, t: usize) -> bool {
        self.kept.get(IS_QUEUED, t) == 1
    }

    /// The cells that hang in some living process's wait queue, each as often as it does.
    fn times_hung(&self) -> Vec<usize> {
        let mut times = vec![0; self.z.c];
        for &c in self.exits.iter().flat_map(|chain| &chain.members) {
            times[c] += 1;
        }
        times
    }
}

/// Rule 2: "The mark and the layout's number are as above."
fn mark(s: &State) -> bool {
    s.kept.header(MARK) == u64::from_le_bytes(MARK_BYTES)
        && s.kept.header(LAYOUT_NUMBER) == THIS_LAYOUT
}

/// Rule 3: "Each queue's links run from head to tail once and end; the tail
/// links the last, and is 0 for an empty queue."
fn run_queue(s: &State) -> bool {
    s.run.ends && s.kept.link(RUN_TAIL, 0) == s.run.last()
}

fn lock_queues(s: &State) -> bool {
    (0..s.z.q).all(|q| s.locks[q].ends && s.kept.link(LOCK_TAIL, q) == s.locks[q].last())
}

/// The same; the timer queue has no tail.
fn timer_queue(s: &State) -> bool {
    s.timers.ends
}

/// Rule 3: "`is_queued` is 1 exactly for the timers in the queue."
fn is_queued(s: &State) -> bool {
    let mut found = vec![false; s.z.k + s.z.p];
    for &t in &s.timers.members {
        found[t] = true;
    }
    (0..found.len()).all(|t| s.is_timer_queued(t) == found[t])
}

/// Rule 3: "`asleep_count` is the number asleep."
fn asleep_count(s: &State) -> bool {
    let asleep = |places: &&Vec<Place>| places.iter().any(|place| place.is_asleep());
    s.kept.header(ASLEEP_COUNT) == s.places.iter().filter(asleep).count() as u64
}

/// Rule 4: "Each record's `state_of` is where it is found: 1 for the one that
/// `up` links, 2 in the run queue, 3 on a Rendez or in a lock's queue; 0
/// exactly where the pid is 0."
fn tags(s: &State) -> bool {
    (0..s.z.p).all(|i| {
        let (tag, places) = (s.tag(i), &s.places[i]);
        (tag == RUNNING) == places.contains(&Place::Running)
            && (tag == READY) == places.contains(&Place::Ready)
            && (tag == ASLEEP) == places.iter().any(|place| place.is_asleep())
            && (tag == FREE) == !s.used(i)
    })
}

/// Rule 5: "The exits of a used record are a chain of exactly `nexits` cells;
/// each names that record in `owner`."
fn chains_of_exits(s: &State) -> bool {
    s.living().all(|i| {
        let chain = &s.exits[i];
        chain.ends
            && chain.members.len() as u64 == s.kept.get(NEXITS, i)
            && chain.members.iter().all(|&c| s.kept.link(OWNER, c) == Some(i))
    })
}

/// Rule 5: "`owner` is 0 exactly for a free cell."
fn owners(s: &State) -> bool {
    let times = s.times_hung();
    (0..s.z.c).all(|c| s.kept.link(OWNER, c).is_none() == (times[c] == 0))
}

/// Rule 6: "The used records are linked by age, `oldest` to `youngest` through
/// `younger` and back through `older`."
fn linked_by_age(s: &State) -> bool {
    let members = &s.ages.members;
    let all = members.len() == s.living().count() && members.iter().all(|&i| s.used(i));
    let last = s.kept.link(YOUNGEST, 0) == s.ages.last();
    let before = |at: usize| at.checked_sub(1).map(|at| members[at]);
    let back = (0..members.len()).all(|at| s.kept.link(OLDER, members[at]) == before(at));
    s.ages.ends && all && last && back
}

/// Rule 6: "Their pids rise."
fn pids_rise(s: &State) -> bool {
    s.ages.members.windows(2).all(|pair| s.pids[pair[0]] < s.pids[pair[1]])
}

/// Rule 7: "Where the parent of a process lives, `parent_at` links its record."
fn parents(s: &State) -> bool {
    s.living().filter(|&i| s.parents[i] != 0).all(|i| {
        let at = s.kept.link(PARENT_AT, i);
        (0..s.z.p).all(|j| s.pids[j] != s.parents[i] || at == Some(j))
    })
}

/// Rule 7: "without a parent it is 0."
fn no_parent(s: &State) -> bool {
    s.living().all(|i| s.parents[i] != 0 || s.kept.get(PARENT_AT, i) == 0)
}

/// Word w of bits: bit b is 1 exactly where 64 w + b is below `n` and such.
fn word_of(w: usize, n: usize, is_such: impl Fn(usize) -> bool) -> u64 {
    let numbers = (64 * w..64 * w + 64).take_while(|&number| number < n);
    numbers.filter(|&number| is_such(number)).fold(0, |word, number| word | 1 << (number % 64))
}

/// Rule 8: "Bit b of record word w is 1 exactly where 64 w + b is below P and
/// record P − 1 − (64 w + b) is used."
fn record_words(s: &State) -> bool {
    let used = |n: usize| s.used(s.z.p - 1 - n);
    (0..64).all(|w| s.kept.get(USED_RECORDS, w) == word_of(w, s.z.p, used))
}

/// Rule 8: "Bit w of `full_records` is 1 exactly where record word w is full."
fn full_records(s: &State) -> bool {
    let full = |w: usize| s.kept.get(USED_RECORDS, w) == u64::MAX;
    s.kept.header(FULL_RECORDS) == word_of(0, 64, full)
}

/// Rule 8: "The cell words are the same for cells, with C for P."  A cell in
/// use is one that is not free: it hangs in a wait queue.
fn cell_words(s: &State) -> bool {
    let times = s.times_hung();
    let used = |n: usize| times[s.z.c - 1 - n] != 0;
    (0..1_016).all(|w| s.kept.get(USED_CELLS, w) == word_of(w, s.z.c, used))
}

/// Rule 8: "Bit b of full word v is 1 exactly where cell word 64 v + b is full."
fn full_words(s: &State) -> bool {
    let full = |w: usize| s.kept.get(USED_CELLS, w) == u64::MAX;
    (0..16).all(|v| s.kept.get(FULL_CELL_WORDS, v) == word_of(v, 1_016, full))
}

/// Rule 8: "and bit v of `full_cells` exactly where full word v is. Bits for which
/// there is no word are 0."
fn full_cells(s: &State) -> bool {
    let full = |v: usize| s.kept.get(FULL_CELL_WORDS, v) == u64::MAX;
    s.kept.header(FULL_CELLS) == word_of(0, 16, full)
}

/// Rule 11: "`next` is 0 unless the process is ready (`state_of`
/// 2) or asleep waiting for a lock (`state_of` 3 and `resume_kind` 3)."
fn next_of_the_unqueued(s: &State) -> bool {
    let is_queued = |i| s.tag(i) == READY || (s.tag(i) == ASLEEP && s.call(i) == QLOCK);
    (0..s.z.p).all(|i| is_queued(i) || s.kept.get(NEXT, i) == 0)
}

/// Rule 11: "`resume_object` is 0 unless the call is a `sleep`, a `tsleep` or a
/// `qlock` (`resume_kind` 1, 2 or 3)."
fn object_of_no_call(s: &State) -> bool {
    s.living().all(|i| matches!(s.call(i), SLEEP | TSLEEP | QLOCK) || s.object(i) == 0)
}

/// Rule 11: "`resume_condition` is 0 unless it is a `sleep` or a `tsleep` (1 or 2)."
fn condition_of_no_sleep(s: &State) -> bool {
    s.living().all(|i| matches!(s.call(i), SLEEP | TSLEEP) || s.kept.get(RESUME_CONDITION, i) == 0)
}

/// Rule 12: "In a free record `older`, `younger`, `exits` and `nexits` are 0."
fn free_records(s: &State) -> bool {
    let is_vacant = |i| [OLDER, YOUNGER, EXITS, NEXITS].iter().all(|f| s.kept.get(*f, i) == 0);
    (0..s.z.p).all(|i| s.used(i) || is_vacant(i))
}

/// Rule 12: "in a free cell `cell_next` is 0."
fn free_cells(s: &State) -> bool {
    (0..s.z.c).all(|c| s.kept.link(OWNER, c).is_some() || s.kept.get(CELL_NEXT, c) == 0)
}

/// Rule 12: "`timer_next` of a timer that is not queued is 0."
fn timers_not_queued(s: &State) -> bool {
    (0..s.z.k + s.z.p).all(|t| s.is_timer_queued(t) || s.kept.get(TIMER_NEXT, t) == 0)
}

/// In range: "the next pid and the last NOW in their ranges"; a NOW is accepted
/// up to 2^51 − 1.
fn last_now_in_range(s: &State) -> bool {
    s.kept.header(LAST_NOW) <= LAST_TIME
}

/// In range: the same; pids start at 1.
fn next_pid_in_range(s: &State) -> bool {
    s.kept.header(NEXT_PID) >= 1
}

/// In range: "the Rendez, condition or lock of a call is one that there is".
fn objects_in_range(s: &State) -> bool {
    s.living().all(|i| match s.call(i) {
        SLEEP | TSLEEP => s.object(i) < s.z.r,
        QLOCK => s.object(i) < s.z.q,
        _ => true,
    })
}

/// Item 16: "A periodic setting is at least the counts of 100 µs."
fn periods_in_range(s: &State) -> bool {
    let shortest = counts(SHORTEST, s.kept.header(HZ));
    (0..s.z.k).map(|t| s.kept.get(PERIOD, t)).all(|period| period == 0 || period >= shortest)
}

/// In range: timer 0's "period is the counts of 10 ms, always".
fn timer_zero_is_the_clock(s: &State) -> bool {
    s.kept.get(PERIOD, 0) == counts(TICK, s.kept.header(HZ))
}

/// One place: "each living process is in exactly one place".
fn one_place(s: &State) -> bool {
    s.living().all(|i| s.places[i].len() == 1)
}

/// Calls fit; item 15: "a call which has not returned fits its place".
fn calls_fit_places(s: &State) -> bool {
    s.living().all(|i| s.places[i].iter().all(|place| call_fits(s, i, *place)))
}

fn call_fits(s: &State, i: usize, place: Place) -> bool {
    match place {
        Place::Running => s.call(i) == NO_CALL,
        Place::Ready => true,
        Place::OnRendez(r) => matches!(s.call(i), SLEEP | TSLEEP) && s.object(i) == r,
        Place::OnWaitr => s.call(i) == WAIT,
        Place::InLock(q) => s.call(i) == QLOCK && s.object(i) == q,
    }
}

/// Timers: "they are queued by deadline".
fn timers_by_deadline(s: &State) -> bool {
    let deadline = |t: usize| s.kept.get(DEADLINE, t);
    s.timers.members.windows(2).all(|pair| deadline(pair[0]) <= deadline(pair[1]))
}

/// Children: "nchild is the number of living processes whose parent has this
/// pid".
fn nchild(s: &State) -> bool {
    s.living().all(|i| {
        let children = s.living().filter(|&j| s.parents[j] == s.pids[i]).count();
        s.kept.get(NCHILD, i) == children as u64
    })
}

/// Cells: "a cell is in one wait queue at most, and there once", in which there
/// are at most 128.
fn cells_in_one_queue(s: &State) -> bool {
    s.times_hung().iter().all(|&times| times <= 1)
        && s.living().all(|i| s.exits[i].members.len() <= 128)
}

/// Pids: "the pids of the living differ, and each is below the next pid".
fn pids_differ(s: &State) -> bool {
    let next = s.kept.header(NEXT_PID);
    s.living().all(|i| s.pids[i] < next && s.living().all(|j| i == j || s.pids[i] != s.pids[j]))
}

/// Pids: "a parent's pid is below its child's".
fn parent_below_child(s: &State) -> bool {
    s.living().all(|i| s.parents[i] < s.pids[i])
}

/// Timers: "an own timer is queued only while its process's call is `tsleep`".
fn timer_in_tsleep_only(s: &State) -> bool {
    (0..s.z.p).all(|i| !s.is_timer_queued(s.z.k + i) || (s.used(i) && s.call(i) == TSLEEP))
}

/// Locks: "a lock with waiters is held".
fn waited_for_is_held(s: &State) -> bool {
    (0..s.z.q).all(|q| s.locks[q].members.is_empty() || s.kept.get(HELD, q) == 1)
}

// That qwaitr is held exactly while the call is `wait` says nothing of the
// bytes: docs/STATE.md has no other sign of qwaitr than that call.

/// Time: "the last NOW is not below ticks. Where timer 0 is queued, its deadline
/// is above ticks".
fn ticks_in_time(s: &State) -> bool {
    let ticks = s.kept.header(TICKS);
    ticks <= s.kept.header(LAST_NOW) && (!s.is_timer_queued(0) || ticks < s.kept.get(DEADLINE, 0))
}

/// Time: "no quantum_end is above ticks + 10".
fn quantum_end(s: &State) -> bool {
    let most = u128::from(s.kept.header(TICKS)) + 10;
    s.living().all(|i| u128::from(s.kept.get(QUANTUM_END, i)) <= most)
}
