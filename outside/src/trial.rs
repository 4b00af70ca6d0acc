//! States tried: `check` against the reader, with counts and the smallest difference.

use crate::damage::{Damage, Edit};
use crate::layout::*;
use crate::library;
use crate::machine::{Call, Machine};
use crate::reader::{self, Kept};
use std::collections::BTreeMap;

#[derive(Default, Clone, Copy)]
struct Count {
    formed: u64,
    not: u64,
}

/// What was found wrong, and how large the state is.
struct Difference {
    size: (usize, usize),
    text: String,
}

pub struct Trial {
    kinds: BTreeMap<&'static str, Count>,
    broken: [u64; reader::COUNT],
    alone: [u64; reader::COUNT],
    differences: u64,
    smallest: Option<Difference>,
    faults: Vec<String>,
    pub richness: Richness,
}

/// What the rich states held, all together.
#[derive(Default)]
pub struct Richness {
    states: usize,
    living: usize,
    running: usize,
    ready: usize,
    on_rendez: usize,
    on_waitr: usize,
    waiters: usize,
    longest: usize,
    tsleeps: usize,
    own_timers: usize,
    kernel_timers: usize,
    exits: usize,
    full_queues: usize,
}

impl Richness {
    pub fn add(&mut self, m: &Machine) {
        let living = m.living();
        self.states += 1;
        self.living += living.len();
        self.running += m.running.iter().count();
        self.ready += m.ready.len();
        self.on_rendez += m.sleepers.iter().flatten().count();
        self.on_waitr += m.on_waitr.iter().filter(|is_on| **is_on).count();
        self.waiters += m.locks.iter().map(|lock| lock.waiters.len()).sum::<usize>();
        self.longest = m.locks.iter().map(|lock| lock.waiters.len()).fold(self.longest, usize::max);
        let calls = living.iter().map(|&i| m.process(i).call);
        self.tsleeps += calls.filter(|call| matches!(call, Call::Tsleep { .. })).count();
        self.own_timers += m.timers.iter().filter(|timer| timer.0 >= m.z.k).count();
        self.kernel_timers += m.timers.iter().filter(|timer| timer.0 < m.z.k).count();
        self.exits += living.iter().map(|&i| m.process(i).exits.len()).sum::<usize>();
        self.full_queues += living.iter().filter(|&&i| m.process(i).exits.len() == 128).count();
    }

    fn report(&self) {
        println!(
            "{} rich states: {} living, {} running, {} ready, {} on a Rendez, {} on waitr, {} wait for a lock \
             (at most {} for one), {} in a tsleep, {} of their timers and {} kernel timers queued, {} exits, \
             {} wait queues of 128\n",
            self.states,
            self.living,
            self.running,
            self.ready,
            self.on_rendez,
            self.on_waitr,
            self.waiters,
            self.longest,
            self.tsleeps,
            self.own_timers,
            self.kernel_timers,
            self.exits,
            self.full_queues
        );
    }
}

/// How a state came out.
struct Outcome {
    broken: u64,
    answer: Option<u8>,
    is_unchanged: bool,
}

impl Outcome {
    fn of(lent: &mut [u8], twin: &[u8]) -> Outcome {
        let broken = reader::broken(lent);
        let answer = library::check(lent);
        Outcome { broken, answer, is_unchanged: lent == twin }
    }

    fn differs(&self) -> bool {
        let formed = u8::from(self.broken == 0);
        !self.is_unchanged || self.answer.is_some_and(|answer| answer != formed)
    }

    fn text(&self) -> String {
        let answer = match self.answer {
            None => "is not linked".to_string(),
            Some(0) => "says no".to_string(),
            Some(1) => "says yes".to_string(),
            Some(n) => format!("answers {n}, which is no bool"),
        };
        let reading = match reader::names(self.broken) {
            names if names.is_empty() => "well formed".to_string(),
            names => format!("not well formed ({})", names.join("; ")),
        };
        let bytes = if self.is_unchanged { "" } else { "; lent bytes were changed" };
        format!("check {answer}; the reader finds it {reading}{bytes}")
    }
}

impl Default for Trial {
    fn default() -> Trial {
        Trial {
            kinds: BTreeMap::new(),
            broken: [0; reader::COUNT],
            alone: [0; reader::COUNT],
            differences: 0,
            smallest: None,
            faults: Vec::new(),
            richness: Richness::default(),
        }
    }
}

impl Trial {
    fn count(&mut self, kind: &'static str, broken: u64) {
        let count = self.kinds.entry(kind).or_default();
        if broken == 0 {
            count.formed += 1;
        } else {
            count.not += 1;
        }
        for i in (0..reader::COUNT).filter(|i| broken >> i & 1 == 1) {
            self.broken[i] += 1;
            self.alone[i] += u64::from(broken == 1 << i);
        }
    }

    /// Tries bytes as they are; `twin` holds the same.  Is it well formed?
    pub fn plain(&mut self, kind: &'static str, lent: &mut [u8], twin: &[u8]) -> bool {
        let outcome = Outcome::of(lent, twin);
        self.count(kind, outcome.broken);
        if outcome.differs() {
            self.note((lent.len(), 0), || {
                format!("{kind}, {} bytes: {}\n{}", lent.len(), outcome.text(), listing(lent))
            });
        }
        outcome.broken == 0
    }

    /// Tries a damaged state.  `lent` and `twin` hold `base` before and after.
    pub fn damaged(
        &mut self,
        damage: &Damage,
        base: &[u8],
        lent: &mut [u8],
        twin: &mut [u8],
    ) -> bool {
        let outcome = try_edits(&damage.edits, base, lent, twin);
        self.count(damage.kind, outcome.broken);
        if outcome.differs() {
            let edits = shrink(damage.edits.clone(), base, lent, twin);
            let outcome = try_edits(&edits, base, lent, twin);
            self.note((base.len(), edits.len()), || story(damage.kind, &edits, base, &outcome));
        }
        outcome.broken == 0
    }

    fn note(&mut self, size: (usize, usize), text: impl FnOnce() -> String) {
        self.differences += 1;
        if self.smallest.as_ref().is_none_or(|smallest| size < smallest.size) {
            self.smallest = Some(Difference { size, text: text() });
        }
    }

    /// Something wrong with the test itself or with `size` and `make`.
    pub fn fault(&mut self, text: String) {
        self.faults.push(text);
    }

    pub fn must(&mut self, holds: bool, text: impl FnOnce() -> String) {
        if !holds {
            self.fault(text());
        }
    }

    pub fn states(&self) -> u64 {
        self.kinds.values().map(|count| count.formed + count.not).sum()
    }

    pub fn not_formed(&self, starts: &str) -> (u64, u64) {
        let such = self.kinds.iter().filter(|(kind, _)| kind.starts_with(starts));
        such.fold((0, 0), |(not, all), (_, count)| {
            (not + count.not, all + count.not + count.formed)
        })
    }

    pub fn times_alone(&self, rule: usize) -> u64 {
        self.alone[rule]
    }

    /// The counts, and the differences; true where there are none.
    pub fn report(&self) -> bool {
        self.richness.report();
        println!("{:<36} {:>9} {:>12} {:>9}", "kind", "states", "well formed", "not");
        for (kind, count) in &self.kinds {
            println!(
                "{kind:<36} {:>9} {:>12} {:>9}",
                count.formed + count.not,
                count.formed,
                count.not
            );
        }
        let formed: u64 = self.kinds.values().map(|count| count.formed).sum();
        println!(
            "{:<36} {:>9} {:>12} {:>9}\n",
            "all",
            self.states(),
            formed,
            self.states() - formed
        );
        println!("{:<36} {:>9} {:>12}", "broken", "states", "it alone");
        for i in 0..reader::COUNT {
            println!("{:<36} {:>9} {:>12}", reader::rule_name(i), self.broken[i], self.alone[i]);
        }
        self.report_faults()
    }

    fn report_faults(&self) -> bool {
        for fault in self.faults.iter().take(20) {
            println!("\nfault: {fault}");
        }
        if let Some(smallest) = &self.smallest {
            println!("\n{} differences; the smallest:\n{}", self.differences, smallest.text);
        }
        self.faults.is_empty() && self.differences == 0
    }
}

/// Makes the edits, tries the state, and takes the edits back.
fn try_edits(edits: &[Edit], base: &[u8], lent: &mut [u8], twin: &mut [u8]) -> Outcome {
    for edit in edits {
        put(lent, edit.at, edit.width, edit.value);
        put(twin, edit.at, edit.width, edit.value);
    }
    let outcome = Outcome::of(lent, twin);
    if !outcome.is_unchanged {
        lent.copy_from_slice(base);
    }
    for edit in edits {
        let place = edit.at..edit.at + edit.width;
        lent[place.clone()].copy_from_slice(&base[place.clone()]);
        twin[place.clone()].copy_from_slice(&base[place]);
    }
    outcome
}

/// Leaves out edits for as long as a difference stays.
fn shrink(mut edits: Vec<Edit>, base: &[u8], lent: &mut [u8], twin: &mut [u8]) -> Vec<Edit> {
    let mut at = 0;
    while at < edits.len() {
        let mut fewer = edits.clone();
        fewer.remove(at);
        if try_edits(&fewer, base, lent, twin).differs() {
            edits = fewer;
        } else {
            at += 1;
        }
    }
    edits
}

fn story(kind: &str, edits: &[Edit], base: &[u8], outcome: &Outcome) -> String {
    let mut text = format!("{kind}, {} bytes: {}\n", base.len(), outcome.text());
    if let Some(kept) = Kept::read(base) {
        text += &format!("{:?}\n", kept.z);
        for edit in edits {
            let old = number(base, edit.at, edit.width);
            text += &format!("changed: {}: {old} to {}\n", locate(kept.z, edit.at), edit.value);
        }
    }
    text + "the state before the change:\n" + &listing(base)
}

/// The fields of a small state that are not 0, but for names and messages.
fn listing(bytes: &[u8]) -> String {
    let Some(kept) = Kept::read(bytes) else { return "sizes or length out of range\n".to_string() };
    let mut text = String::new();
    for region in REGIONS
        .into_iter()
        .filter(|r| !matches!(r, Region::Name | Region::Message | Region::Condition))
    {
        for i in 0..region.records(kept.z) {
            let fields = FIELDS.iter().filter(|f| f.region == region && kept.get(**f, i) != 0);
            let shown: Vec<String> =
                fields.map(|f| format!("{} {}", f.name, kept.get(*f, i))).collect();
            if !shown.is_empty() && text.len() < 20_000 {
                text += &format!("  {} {i}: {}\n", region.word(), shown.join(", "));
            }
        }
    }
    text
}
