//! Lists of steps from a seed.  The generator runs each step it writes, and
//! picks the next by the state it finds, so that lists go deep.

mod bytes;
mod fields;
mod look;
mod plans;
mod times;

use crate::driver::{self, Driver};
use crate::guard::{cells_in_use, next_meets_5};
use crate::host::Host;
use crate::parse::Step;
use crate::perform::{Answer, parts};
use crate::proc::preempt_due;
use crate::random::Random;
use crate::sizes::Sizes;
use look::{family, locks, running, sleepers, tells_parent};
use std::collections::VecDeque;
use std::io::Write;

/// The most firings of a list that is written.
const LIST_FIRINGS: u64 = 300;

#[derive(Clone, Copy, PartialEq, Debug)]
enum Kind {
    Start,
    Rfork,
    Name,
    Sched,
    Yield,
    Sleep,
    Tsleep,
    Wakeup,
    Qlock,
    Canqlock,
    Qunlock,
    Cond,
    Clock,
    Tadd,
    Tdel,
    Intr,
    Due,
    Exit,
    Wait,
    Nonsense,
}
use Kind::*;

/// The weight of each kind: with a process running; with none, but one ready;
/// with none of either, but one asleep; with none at all.
const WEIGHTS: [(Kind, [u64; 4]); 20] = [
    (Start, [3, 10, 10, 60]),
    (Rfork, [13, 1, 1, 2]),
    (Name, [4, 1, 1, 1]),
    (Sched, [2, 70, 8, 6]),
    (Yield, [9, 1, 1, 1]),
    (Sleep, [9, 2, 2, 1]),
    (Tsleep, [9, 1, 1, 1]),
    (Wakeup, [6, 8, 14, 1]),
    (Qlock, [9, 2, 2, 1]),
    (Canqlock, [2, 2, 2, 1]),
    (Qunlock, [6, 5, 12, 1]),
    (Cond, [6, 6, 8, 2]),
    (Clock, [2, 2, 2, 3]),
    (Tadd, [5, 4, 7, 4]),
    (Tdel, [1, 1, 1, 1]),
    (Intr, [7, 7, 20, 4]),
    (Due, [3, 1, 1, 1]),
    (Exit, [9, 1, 1, 1]),
    (Wait, [8, 1, 1, 1]),
    (Nonsense, [3, 3, 3, 3]),
];

/// What a list is mostly about: kinds that come three times as often, and
/// kinds that hardly come.
type Mood = (&'static [Kind], &'static [Kind]);

const MOODS: [Mood; 8] = [
    (&[], &[]),
    (&[Rfork, Start, Name], &[Exit]),
    (&[Rfork, Wait, Exit], &[Start]),
    (&[Rfork, Exit, Yield], &[Start, Wait, Sleep, Tsleep, Qlock]),
    (&[Qlock, Canqlock, Qunlock, Yield], &[]),
    (&[Sleep, Wakeup, Cond], &[Tsleep]),
    (&[Tsleep, Intr, Wakeup], &[Sleep]),
    (&[Clock, Tadd, Intr, Due, Yield], &[]),
];

pub struct Generator {
    random: Random,
    driver: Driver,
    mood: Mood,
    /// Lines decided on already.
    plan: VecDeque<String>,
    /// Firings and steps left.
    firings: u64,
    steps: u64,
    count: u64,
}

/// What decides how often a kind is to come.
struct Seen {
    living: usize,
    full: bool,
    /// Whether preemption is due.
    due: bool,
    /// Whether the process next to run would meet 5.
    stuck: bool,
}

/// Write `count` steps from `seed`.
pub fn list(sizes: Sizes, seed: u64, count: u64, out: &mut impl Write) -> Result<(), String> {
    let mut generator = Generator::new(sizes, seed, count, LIST_FIRINGS);
    while generator.left() > 0 {
        let mut line = generator.step()?.0;
        line.push(b'\n');
        out.write_all(&line).map_err(|e| e.to_string())?;
    }
    out.flush().map_err(|e| e.to_string())
}

impl Generator {
    /// For `count` steps that fire about so many timers at most.
    pub fn new(sizes: Sizes, seed: u64, count: u64, firings: u64) -> Generator {
        let mut random = Random::new(seed);
        let mood = random.pick(&MOODS);
        let (driver, plan) = (Driver::new(sizes), VecDeque::new());
        Generator { random, driver, mood, plan, firings, steps: count, count }
    }

    /// How many steps are left.
    pub fn left(&self) -> u64 {
        self.steps
    }

    pub fn driver(&self) -> &Driver {
        &self.driver
    }

    /// Take these lines before others.
    pub fn plan(&mut self, lines: impl IntoIterator<Item = String>) {
        self.plan.extend(lines);
    }

    /// Run an exit with this status, which may be too long for a line.
    pub fn exit_with(&mut self, status: Vec<u8>) -> Result<Answer, String> {
        self.driver.step(false, Step::Exit(status))
    }

    /// The next line, which has been run, and its answer.
    pub fn step(&mut self) -> Result<(Vec<u8>, Answer), String> {
        if self.plan.is_empty() && self.random.chance(8) {
            self.plan = self.new_plan().into();
        }
        let line = match self.plan.pop_front() {
            Some(line) => line.into_bytes(),
            None => self.free_line(),
        };
        let answer = self.driver.line(&line)?;
        if let Answer::Fired(fired, _) = answer {
            self.firings = self.firings.saturating_sub(fired);
        }
        self.steps = self.steps.saturating_sub(1);
        Ok((line, answer))
    }

    /// A line of a kind picked by the state.
    fn free_line(&mut self) -> Vec<u8> {
        let kind = self.kind();
        let mut line = self.line(kind);
        if self.random.chance(mark_chance(kind)) {
            line.splice(0..0, *b"i ");
        }
        line
    }

    fn kind(&mut self) -> Kind {
        let column = match (running(), driver::is_none_queued(), driver::asleep()) {
            (true, _, _) => 0,
            (false, false, _) => 1,
            (false, true, 1..) => 2,
            (false, true, 0) => 3,
        };
        let seen = self.seen();
        let weigh = |(kind, weights): &(Kind, [u64; 4])| {
            (weights[column] * self.times(*kind, &seen), *kind)
        };
        let choices: [_; WEIGHTS.len()] = std::array::from_fn(|i| weigh(&WEIGHTS[i]));
        self.random.weighted(&choices)
    }

    fn seen(&self) -> Seen {
        let living = parts().living.borrow().len();
        Seen {
            living,
            full: living >= self.driver.sizes.processes,
            due: preempt_due::<Host>(),
            stuck: next_meets_5(&self.driver),
        }
    }

    /// How often `kind` is to come, in tenths of its weight.
    fn times(&self, kind: Kind, seen: &Seen) -> u64 {
        let (often, seldom) = self.mood;
        let mood = match kind {
            _ if often.contains(&kind) => 6,
            _ if seldom.contains(&kind) => 1,
            _ => 2,
        };
        mood * self.by_state(kind, seen)
    }

    /// How often `kind` is to come in this state; 5 is as usual.
    fn by_state(&self, kind: Kind, seen: &Seen) -> u64 {
        let Seen { living, full, due, stuck } = *seen;
        match kind {
            Sched if stuck => 1,
            Cond | Wakeup | Intr if stuck => 12,
            Start if full => 1,
            Start if living > 2 => 3,
            Rfork if full => 2,
            Yield if due => 30,
            Due if due => 15,
            Due if self.driver.timers[0].is_none() => 1,
            Clock if self.driver.timers[0].is_some() => 2,
            Exit if full || tells_parent() => 8,
            Exit if family() > 0 => 2,
            Wait if family() == 0 => 1,
            Wait if cells_in_use() >= self.driver.sizes.cells => 15,
            Qunlock if locks(|s| s.locked).is_empty() => 1,
            Wakeup if sleepers().is_empty() => 2,
            Intr if self.deadlines().is_empty() => 1,
            _ => 5,
        }
    }

    fn line(&mut self, kind: Kind) -> Vec<u8> {
        let text = match kind {
            Start => format!("start {}", self.failing(2)),
            Rfork => format!("rfork {} {}", self.flags(), self.failing(3)),
            Name => return self.name(),
            Sched => "sched".into(),
            Yield => "yield".into(),
            Sleep => format!("sleep {}", self.place()),
            Tsleep => self.tsleep(),
            Wakeup => format!("wakeup {}", self.rendez_to_wake()),
            Qlock => format!("qlock {}", self.lock_to_take()),
            Canqlock => format!("canqlock {}", self.lock_to_take()),
            Qunlock => format!("qunlock {}", self.lock_to_give_up()),
            Cond => format!("cond {} {}", self.condition_to_set(), self.random.below(2)),
            Clock => format!("clock {}", self.now()),
            Tadd => self.tadd(),
            Tdel => format!("tdel {}", self.timer()),
            Intr => format!("intr {}", self.now_to_fire()),
            Due => "due".into(),
            Exit => return self.exit(),
            Wait => "wait".into(),
            Nonsense => return self.nonsense(),
        };
        text.into_bytes()
    }
}

fn mark_chance(kind: Kind) -> u64 {
    match kind {
        Nonsense => 0,
        Wakeup | Canqlock | Qunlock | Cond | Clock | Tadd | Tdel | Intr | Due => 12,
        Qlock => 8,
        _ => 2,
    }
}
