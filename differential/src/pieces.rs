//! Steps taken by `run`, some at a time, with answers that are known.

use crate::expected::Expected;
use crate::lent::Lent;
use crate::library;
use crate::list::Taken;
use oracle::random::Random;

/// An answer of `run`: four words, and a message buffer.
pub const ANSWER: usize = 160;
const MESSAGE: usize = 32;

/// Calls made, and what went wrong: at which of the steps, and what.
pub type Outcome = Result<u64, (usize, String)>;

/// Take all these steps.
pub fn take(lent: &mut Lent, steps: &[Taken], random: &mut Random) -> Outcome {
    let (mut at, mut calls) = (0, 0);
    while at < steps.len() {
        at += call(lent, &steps[at..], random).map_err(|(step, why)| (at + step, why))?;
        calls += 1;
    }
    Ok(calls)
}

/// Take one step; what it must leave of the state is watched as `step` is.
pub fn take_one(lent: &mut Lent, step: &Taken, random: &mut Random) -> Result<(), String> {
    let (mut input, room) = (Vec::new(), ANSWER + random.pick(&[0, 0, 1, 159]));
    put_step(&mut input, &step.bytes);
    let mut answers = room_for_answers(room);
    let mut expected = answers.clone();
    put(&mut expected[..ANSWER], &step.expected);
    let call = |state: &mut [u8]| library::run(state, &input, &mut answers);
    let (taken, left) = lent.watched(&step.bytes, &step.expected, call);
    if taken != 1 {
        return Err(format!("run takes {taken} steps of one"));
    }
    if answers != expected {
        return Err(difference(&answers, &expected).1);
    }
    left
}

/// Room for answers, with bytes in it that must stay where no answer comes.
fn room_for_answers(room: usize) -> Vec<u8> {
    (0..room).map(|at| at as u8 ^ 0x39).collect()
}

/// One call, with some of the steps: how many were taken.
fn call(lent: &mut Lent, steps: &[Taken], random: &mut Random) -> Result<usize, (usize, String)> {
    let given = random.pick(&[0, 1, 1, 2, 7, 30, 200, 2_000]).min(steps.len());
    let slots = match random.below(8) {
        0 => random.below(given as u64 + 1) as usize,
        1 => given + 1 + random.below(3) as usize,
        _ => given,
    };
    let must = given.min(slots);
    let input = input(&steps[..given], steps.get(given), random);
    let room = ANSWER * slots + random.pick(&[0, 0, 1, 100, 159]);
    let mut answers = room_for_answers(room);
    let mut expected = answers.clone();
    for (answer, step) in expected.chunks_exact_mut(ANSWER).zip(&steps[..must]) {
        put(answer, &step.expected);
    }
    let taken = lent.run(&input, &mut answers).map_err(|why| (0, why))?;
    if taken != must as u64 {
        return Err((
            must,
            format!("run takes {taken} of {given} steps in {slots} answers, must be {must}"),
        ));
    }
    match answers == expected {
        true => Ok(must),
        false => Err(difference(&answers, &expected)),
    }
}

/// The steps one behind the other, each with its length, and sometimes a part
/// of another.
fn input(steps: &[Taken], next: Option<&Taken>, random: &mut Random) -> Vec<u8> {
    let mut input = Vec::new();
    for step in steps {
        put_step(&mut input, &step.bytes);
    }
    let mut part = Vec::new();
    match (random.below(4), next) {
        (0, Some(next)) => {
            put_step(&mut part, &next.bytes);
            part.truncate(random.below(part.len() as u64) as usize);
        }
        (1, _) => {
            part.extend(random.pick(&[1, 255, 65_536, u32::MAX]).to_le_bytes());
            part.extend(vec![4; random.pick(&[0, 0, 100]).min(part[0] as usize - 1)]);
        }
        _ => {}
    }
    input.extend(part);
    input
}

pub fn put_step(input: &mut Vec<u8>, bytes: &[u8]) {
    input.extend((bytes.len() as u32).to_le_bytes());
    input.extend(bytes);
}

/// Write an answer as `run` does: of a refusal the number alone.
fn put(answer: &mut [u8], expected: &Expected) {
    let words = expected.words;
    let mut put = |at: usize, word: u64| answer[at..at + 8].copy_from_slice(&word.to_le_bytes());
    put(0, words.number);
    if !expected.is_refusal() {
        put(8, words.first);
        put(16, words.second);
        put(24, words.length);
        answer[MESSAGE..MESSAGE + expected.message.len()].copy_from_slice(&expected.message);
    }
}

fn difference(answers: &[u8], expected: &[u8]) -> (usize, String) {
    let differs = answers.iter().zip(expected).position(|(a, e)| a != e).unwrap_or_default();
    let step = differs / ANSWER;
    let of = |bytes: &[u8]| {
        let end = bytes.len().min(ANSWER * (step + 1));
        bytes[ANSWER * step..end].escape_ascii().to_string()
    };
    (step, format!("run leaves {}\nmust be    {}", of(answers), of(expected)))
}
