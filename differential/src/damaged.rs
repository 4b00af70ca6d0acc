//! `step` and `run` on states that are damaged, with steps and message buffers
//! of any bytes and lengths.

use crate::bytes::{self, is_step};
use crate::counts::{self, Counts};
use crate::expected::{self, ANSWERS, NO_STEP, REFUSALS};
use crate::lent::uses_up_a_pid;
use crate::library::{self, Words};
use crate::many;
use crate::pieces::{ANSWER, put_step};
use crate::steps;
use crate::subject::Subjects;
use oracle::random::Random;
use oracle::sizes::Sizes;
use outside::layout::{DEADLINE, IS_QUEUED, LAST_NOW, NEXT_PID, PERIOD, Region, number, total};
use outside::reader::Kept;

const NOT_FORMED: u64 = 1;
const SHORTEST: usize = 127;
/// A run child, and a child: the answers with a message.
const WITH_MESSAGE: [u64; 2] = [40, 43];
/// A step that would fire more timers than this is not handed in.
const MOST_FIRINGS: u64 = 10_000;
/// Calls on a well-formed state, and on another.
const WALK: usize = 10;
const WALK_OF_ANOTHER: usize = 2;

struct Trial {
    random: Random,
    counts: Counts,
}

/// Make `count` calls of `step`: the counts, or what went wrong.
pub fn run(count: u64, seed: u64) -> Result<Counts, String> {
    let mut subjects = Subjects::new(seed);
    let mut t = Trial { random: Random::new(seed), counts: Counts::default() };
    while t.counts.get(counts::STEP_CALLS) < count {
        let (kind, state) = subjects.next();
        t.walk(state).map_err(|why| format!("{kind}: {why}\n"))?;
    }
    t.counts.add(many::DONE, 1);
    Ok(t.counts)
}

impl Trial {
    /// Some steps on one state.
    fn walk(&mut self, mut state: Vec<u8>) -> Result<(), String> {
        state.shrink_to_fit();
        let formed = library::check(&mut state);
        for _ in 0..if formed { WALK } else { WALK_OF_ANOTHER } {
            if self.random.chance(5) {
                self.run(&mut state)?;
            }
            let bytes = self.step(&state);
            if !fires_too_many(&state, &bytes) {
                self.call(formed, &mut state, &bytes)?;
            }
        }
        Ok(())
    }

    /// Bytes of a step that fits the state, or nearly, or of none.
    fn step(&mut self, state: &[u8]) -> Vec<u8> {
        let (sizes, now) = match Kept::read(state) {
            Some(kept) => (of(kept.z), kept.get(LAST_NOW, 0)),
            None => (Sizes::DEFAULT, 0),
        };
        let now = now.saturating_add(self.random.pick(&[0, 0, 0, 1, 1_000, 10_000_000]));
        let line = match self.random.below(20) {
            0 => steps::odd_line(&mut self.random, &sizes, now),
            1..5 => "sched".to_string(),
            _ => steps::line(&mut self.random, &sizes, now),
        };
        let mut bytes = bytes::of_line(line.as_bytes()).unwrap_or_default();
        if self.random.chance(12) {
            bytes = steps::changed(&mut self.random, &bytes);
        }
        bytes.shrink_to_fit();
        bytes
    }

    fn message(&mut self) -> Vec<u8> {
        let any = self.random.below(300) as usize;
        let length = match self.random.below(10) {
            0 => self.random.pick(&[0, 126, any, any]),
            _ => self.random.pick(&[127, 128, 200]),
        };
        vec![self.random.bits() as u8; length]
    }

    fn call(&mut self, formed: bool, state: &mut [u8], bytes: &[u8]) -> Result<(), String> {
        let (before, mut message) = (state.to_vec(), self.message());
        let message_before = message.clone();
        let words = library::step(state, bytes, &mut message);
        self.counts.add(counts::STEP_CALLS, 1);
        self.counts.add(&expected::name(words.number), 1);
        let is_refusal = REFUSALS.contains(&words.number);
        let wrong = numbers_wrong(formed, bytes, message.len(), words.number)
            .or_else(|| match is_refusal {
                true => refusal_wrong(&words, bytes, &before, state),
                false => answer_wrong(&words, &before, state),
            })
            .or_else(|| {
                let written = if is_refusal { 0 } else { words.length as usize };
                let is_kept = message[written..] == message_before[written..];
                (!is_kept).then_some("bytes of the message buffer are changed")
            });
        wrong.map_or(Ok(()), |wrong| {
            let length = message.len();
            Err(format!(
                "{wrong}: {words}, check says {formed}\nstep bytes {bytes:02x?}\n\
                 a message buffer of {length} bytes, state before {before:02x?}"
            ))
        })
    }

    /// `run` is `step` again and again.
    fn run(&mut self, state: &mut Vec<u8>) -> Result<(), String> {
        let before = state.clone();
        let (mut input, count) = (Vec::new(), self.random.below(5));
        let mut answers: Vec<u8> = (0..self.random.below(900)).map(|at| at as u8).collect();
        let answers_before = answers.clone();
        let mut must = 0;
        for _ in 0..count {
            let bytes = self.step(state);
            if fires_too_many(state, &bytes) {
                break;
            }
            put_step(&mut input, &bytes);
            if let Some(answer) = answers.chunks_exact_mut(ANSWER).nth(must) {
                put_answer(state, &bytes, answer);
                must += 1;
            }
        }
        input.extend([200, 0, 0, 0, 4, 0].iter().take(self.random.below(7) as usize));
        let (mut twin, mut given) = (before.clone(), answers_before);
        let taken = library::run(&mut twin, &input, &mut given);
        self.counts.add(counts::RUN_CALLS, 1);
        self.counts.add(counts::RUN_STEPS, taken);
        if taken == must as u64 && given == answers && twin == *state {
            return Ok(());
        }
        Err(format!(
            "run takes {taken} steps, must be {must}, or differs from step: \
             input {input:02x?}\nstate before {before:02x?}"
        ))
    }
}

/// One step by `step`, its answer as `run` writes it.
fn put_answer(state: &mut [u8], bytes: &[u8], answer: &mut [u8]) {
    let (front, message) = answer.split_at_mut(32);
    let words = library::step(state, bytes, message);
    let all = [words.number, words.first, words.second, words.length];
    let written = if REFUSALS.contains(&words.number) { 1 } else { 4 };
    for (place, word) in front.chunks_exact_mut(8).zip(all).take(written) {
        place.copy_from_slice(&word.to_le_bytes());
    }
}

fn of(z: outside::layout::Sizes) -> Sizes {
    let (processes, rendez, locks, timers, cells) = (z.p, z.r, z.q, z.k, z.c);
    Sizes { processes, rendez, locks, timers, cells, hz: 1 }
}

/// What is wrong with the number, if anything.
fn numbers_wrong(formed: bool, bytes: &[u8], buffer: usize, number: u64) -> Option<&'static str> {
    let is_known = REFUSALS.contains(&number) || ANSWERS.iter().any(|answer| answer.0 == number);
    if !is_known {
        return Some("no number of the table or of an answer");
    }
    if formed == (number == NOT_FORMED) {
        return Some("step and check do not agree");
    }
    let is_none = !is_step(bytes) || buffer < SHORTEST;
    (formed && is_none && number != NO_STEP).then_some("no step, or a short message buffer")
}

fn refusal_wrong(words: &Words, bytes: &[u8], before: &[u8], state: &[u8]) -> Option<&'static str> {
    if !words.are_untouched() {
        return Some("refused, and writes words");
    }
    let mut expected = before.to_vec();
    if let Some(kept) = Kept::read(before)
        && uses_up_a_pid(bytes, words.number)
    {
        NEXT_PID.set(&mut expected, kept.z, 0, kept.get(NEXT_PID, 0) + 1);
    }
    (state != expected).then_some("refused, and changes the state")
}

fn answer_wrong(words: &Words, before: &[u8], state: &mut [u8]) -> Option<&'static str> {
    let kept = Kept::read(before)?;
    let end = total(kept.z);
    if state[end..] != before[end..] {
        return Some("bytes behind the state are changed");
    }
    // The mark, the layout's number, hz and the sizes.
    if state[..26] != before[..26] {
        return Some("the header's first fields are changed");
    }
    if words.length > SHORTEST as u64 || !WITH_MESSAGE.contains(&words.number) && words.length > 0 {
        return Some("a message that is too long, or not due");
    }
    (!library::check(state)).then_some("the state is not well formed any more")
}

/// Whether the step is an interrupt that fires a great many timers.
fn fires_too_many(state: &[u8], bytes: &[u8]) -> bool {
    const INTR: u8 = 16;
    let (true, Some(&INTR), Some(kept)) = (is_step(bytes), bytes.first(), Kept::read(state)) else {
        return false;
    };
    let now = number(bytes, 2, 8);
    let queued = (0..Region::Timer.records(kept.z)).filter(|&t| kept.get(IS_QUEUED, t) == 1);
    let fired = queued.map(|t| match now.checked_sub(kept.get(DEADLINE, t)) {
        None => 0,
        Some(late) if t < kept.z.k => late.checked_div(kept.get(PERIOD, t)).map_or(1, |n| n + 1),
        Some(_) => 1,
    });
    fired.fold(0, u64::saturating_add) > MOST_FIRINGS
}
