//! One list, on r9's own code and by `step` and `run`.
//!
//! Every step is taken by `step`, or by `run` alone, and after each who is where
//! is compared (`view`), in a state of any size; in one that is not large, with
//! any bytes where the machine has no use for them, that these stay too
//! (`unused`).  At the end `run` takes the whole list again on a state of its
//! own, some steps at a time.

use crate::bytes;
use crate::counts::{self, Counts};
use crate::expected::{self, Expected, NO_STEP};
use crate::lent::{self, Lent, Message};
use crate::many;
use crate::pieces;
use crate::plan::{self, Plan};
use crate::steps;
use crate::unused::Before;
use crate::view::View;
use oracle::generate::Generator;
use oracle::perform::Answer;
use oracle::random::Random;
use oracle::sizes::Sizes;
use outside::layout::LAST_NOW;

/// Of a hundred steps so many are taken by `run`.
const BY_RUN: u64 = 20;

/// A step that r9's code has taken, and what it answered.
pub struct Taken {
    line: Vec<u8>,
    pub bytes: Vec<u8>,
    pub expected: Expected,
}

struct List {
    random: Random,
    sizes: Sizes,
    generator: Generator,
    lent: Lent,
    /// The state before a step, and the seed of its unused bytes; none of a
    /// large one.
    before: Option<(Before, u64)>,
    taken: Vec<Taken>,
    /// Where it is not 0: at 1 an exit is due, above it so many steps later.
    exit_in: usize,
    counts: Counts,
}

/// At which step of the list they differ, and how.
type Difference = (usize, String);

/// Run list number `index` of those in large states, or of the others: the
/// counts, or the list and how it differs.
pub fn run(index: u64, seed: u64, is_large: bool) -> Result<Counts, Vec<u8>> {
    let Plan { sizes, opening, count } = Plan::of(index, seed, is_large);
    let mut random = Random::new(seed ^ 0x5eed);
    let mut generator = Generator::new(sizes, seed, count, 40_000 + 2 * count);
    generator.plan(opening);
    let mut lent = Lent::fresh(&sizes, &mut random)?;
    let before = if lent.state().len() > plan::LARGE {
        None
    } else {
        let filled = random.bits();
        lent.fill_unused(filled)?;
        Some((Before::new(lent.state(), lent.z), filled))
    };
    let (taken, counts) = (Vec::new(), Counts::default());
    let mut list = List { random, sizes, generator, lent, before, taken, exit_in: 0, counts };
    match list.all() {
        Ok(()) => Ok(list.counts),
        Err((at, why)) => Err(list.report(at, &why)),
    }
}

impl List {
    fn all(&mut self) -> Result<(), Difference> {
        while self.generator.left() > 0 {
            self.next_steps()?;
        }
        self.again()?;
        self.counts.add(many::DONE, 1);
        self.counts.add(counts::LISTS, 1);
        let steps = self.taken.len() as u64;
        self.counts.add(counts::STEPS, steps);
        if self.lent.state().len() > plan::LARGE {
            self.counts.add(counts::LARGE_STEPS, steps);
        }
        plan::names(&self.sizes).iter().for_each(|name| self.counts.add(name, steps));
        Ok(())
    }

    /// One step of the generator, and what is put in beside it: bytes that are
    /// no step, which leave what was there to be compared.
    fn next_steps(&mut self) -> Result<(), Difference> {
        let from = self.taken.len();
        self.take()?;
        for at in from..self.taken.len() {
            if self.random.chance(2) {
                self.with_short_buffer(at)?;
            }
            if self.random.chance(BY_RUN) {
                self.by_run(at)?
            } else {
                self.by_step(at)?
            }
            self.compare(at)?;
            self.compare_unused(at)?;
        }
        Ok(())
    }

    /// The same steps by `run` on a fresh state: the same answers and bytes.
    fn again(&mut self) -> Result<(), Difference> {
        let last = self.taken.len();
        let mut lent = Lent::fresh(&self.sizes, &mut self.random).map_err(|why| (0, why))?;
        if let Some((_, filled)) = self.before {
            lent.fill_unused(filled).map_err(|why| (0, why))?;
        }
        let calls = pieces::take(&mut lent, &self.taken, &mut self.random)?;
        self.counts.add(counts::RUN_CALLS, calls);
        self.counts.add(counts::RUN_STEPS, last as u64);
        let wrong = if lent.state() != self.lent.state() {
            "run leaves another state than step"
        } else if !self.lent.is_formed() {
            "check finds the state not well formed"
        } else {
            return Ok(());
        };
        Err((last, wrong.to_string()))
    }

    /// r9's code takes a step; beside it sometimes comes one that is none.
    fn take(&mut self) -> Result<(), Difference> {
        if self.random.chance(3) {
            let now = LAST_NOW.get(self.lent.state(), self.lent.z, 0);
            self.generator.plan([steps::odd_line(&mut self.random, &self.sizes, now)]);
        }
        if self.exit_in == 0 && self.random.chance(1) {
            self.plan_exit_of_a_child();
        }
        self.exit_in = self.exit_in.saturating_sub(1);
        let taken = if self.exit_in == 1 { self.exit() } else { self.next() };
        taken.map_err(|why| (self.taken.len(), why))?;
        if self.random.chance(4) {
            let like = self.taken[self.taken.len() - 1].bytes.clone();
            self.push_no_step(&like, &Answer::Refused(NO_STEP as u32));
        }
        Ok(())
    }

    /// A child is made, and its parent waits; the step after these is an exit.
    fn plan_exit_of_a_child(&mut self) {
        let lines = ["rfork 16 0", "wait", "sched"];
        self.exit_in = lines.len() + 2;
        self.generator.plan(lines.map(String::from));
    }

    /// The generator's next line.
    fn next(&mut self) -> Result<(), String> {
        let (line, answer) = self.generator.step()?;
        match bytes::of_line(&line) {
            Some(bytes) => self.push(line, bytes, Expected::from(&answer)),
            None => self.push_no_step(&[1, 0, 0, 0, 0, 0, 0, 0, 0, 0], &answer),
        }
        Ok(())
    }

    /// An exit with any bytes but a line's end, sometimes with more than a line
    /// takes; then its parent is likely to run.
    fn exit(&mut self) -> Result<(), String> {
        let length = self.random.pick(&[3, 60, 100, 110, 120, 127, 128, 200, 5_000, 70_000]);
        let (least, some) = (self.random.pick(&[0, 0x80, 0xc0]), self.random.below(12) as usize);
        let any = |_| match self.random.bits() as u8 {
            b'\n' => b' ',
            byte => byte.max(least),
        };
        let status: Vec<u8> = (0..length + some).map(any).collect();
        let line = [b"exit ", &status[..]].concat();
        let answer = self.generator.exit_with(status.clone())?;
        self.push(line, bytes::exit(&status), Expected::from(&answer));
        self.generator.plan(["sched", "wait"].map(String::from));
        Ok(())
    }

    fn push(&mut self, line: Vec<u8>, bytes: Vec<u8>, expected: Expected) {
        self.counts.add(&expected::name(expected.words.number), 1);
        self.taken.push(Taken { line, bytes, expected });
    }

    /// Bytes that are no step; as a line they stand as one that is none.
    fn push_no_step(&mut self, like: &[u8], answer: &Answer) {
        let bytes = steps::no_step(&mut self.random, like);
        self.push(format!("# bytes {bytes:02x?}").into_bytes(), bytes, Expected::from(answer));
    }

    fn by_step(&mut self, at: usize) -> Result<(), Difference> {
        self.count_call(counts::STEP_CALLS, at);
        let Taken { bytes, expected, .. } = &self.taken[at];
        let mut message = Message::any(&mut self.random);
        self.lent.step(bytes, &mut message, expected).map_err(|why| (at, why))
    }

    fn by_run(&mut self, at: usize) -> Result<(), Difference> {
        self.count_call(counts::RUN_SINGLY, at);
        let outcome = pieces::take_one(&mut self.lent, &self.taken[at], &mut self.random);
        outcome.map_err(|why| (at, why))
    }

    fn count_call(&mut self, what: &str, at: usize) {
        let Taken { bytes, expected, .. } = &self.taken[at];
        self.counts.add(what, 1);
        self.counts.add(counts::READ_ONLY_CALLS, u64::from(lent::is_read_only(bytes, expected)));
    }

    /// The step with a message buffer under 127 bytes.
    fn with_short_buffer(&mut self, at: usize) -> Result<(), Difference> {
        let mut message = Message::short(&mut self.random);
        let expected = Expected::refused(NO_STEP);
        self.counts.add(counts::STEP_CALLS, 1);
        self.counts.add(counts::READ_ONLY_CALLS, 1);
        let outcome = self.lent.step(&self.taken[at].bytes, &mut message, &expected);
        outcome.map_err(|why| (at, format!("with a short message buffer: {why}")))
    }

    fn compare(&mut self, at: usize) -> Result<(), Difference> {
        self.counts.add(counts::COMPARED, 1);
        let view = View { bytes: self.lent.state(), z: self.lent.z };
        view.compare(self.generator.driver()).map_err(|why| (at, format!("after it: {why}")))
    }

    /// A step that may write has left what the machine has no use for.
    fn compare_unused(&mut self, at: usize) -> Result<(), Difference> {
        let Taken { bytes, expected, .. } = &self.taken[at];
        let Some((before, _)) = &mut self.before else { return Ok(()) };
        if lent::is_read_only(bytes, expected) {
            return Ok(());
        }
        self.counts.add(counts::UNUSED, 1);
        before.step(self.lent.state()).map_err(|why| (at, format!("after it: {why}")))
    }

    /// The list as lines up to the difference, and the difference.
    fn report(&self, at: usize, why: &str) -> Vec<u8> {
        let mut text = Vec::new();
        for step in self.taken.iter().take(at + 1) {
            text.extend(&step.line);
            text.push(b'\n');
        }
        let Sizes { processes: p, rendez: r, locks: q, timers: k, cells: c, hz } = self.sizes;
        text.extend(format!("\nsizes {p},{r},{q},{k},{c},{hz}: a difference").into_bytes());
        if let Some(Taken { bytes, expected, .. }) = self.taken.get(at) {
            let answer = format!("bytes {bytes:02x?}, the Rust answers {}", expected.words);
            text.extend(format!(" at step {}, {answer}", at + 1).into_bytes());
        }
        text.extend(format!(":\n{why}\n").into_bytes());
        text
    }
}
