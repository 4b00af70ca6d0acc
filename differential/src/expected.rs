//! What a call must answer, and the message that it must leave.

use crate::library::{UNTOUCHED, Words};
use oracle::perform::Answer;

/// The numbers that stand for answers, by their names.
pub const ANSWERS: [(u64, &str); 12] = [
    (32, "done"),
    (33, "asleep"),
    (34, "yes"),
    (35, "no"),
    (36, "idle"),
    (37, "end"),
    (38, "pid"),
    (39, "run"),
    (40, "run child"),
    (41, "fired"),
    (42, "exit"),
    (43, "child"),
];

/// The numbers of docs/MACHINE.md, "Refusals".
pub const REFUSALS: std::ops::RangeInclusive<u64> = 1..=17;
/// Those of an rfork that failed, and of no step.
pub const NO_MEMORY: u64 = 11;
pub const NO_STEP: u64 = 2;

#[derive(Clone, Debug, PartialEq)]
pub struct Expected {
    pub words: Words,
    pub message: Vec<u8>,
}

impl Expected {
    pub fn refused(number: u64) -> Expected {
        let [first, second, length] = UNTOUCHED;
        Expected { words: Words { number, first, second, length }, message: Vec::new() }
    }

    pub fn is_refusal(&self) -> bool {
        REFUSALS.contains(&self.words.number)
    }

    fn answer(number: u64, first: u64, second: u64) -> Expected {
        Expected { words: Words { number, first, second, length: 0 }, message: Vec::new() }
    }

    fn with_message(mut self, message: &[u8]) -> Expected {
        self.words.length = message.len() as u64;
        self.message = message.to_vec();
        self
    }
}

impl From<&Answer> for Expected {
    fn from(answer: &Answer) -> Expected {
        match answer {
            Answer::Done => Expected::answer(32, 0, 0),
            Answer::Asleep => Expected::answer(33, 0, 0),
            Answer::Yes => Expected::answer(34, 0, 0),
            Answer::No => Expected::answer(35, 0, 0),
            Answer::Idle => Expected::answer(36, 0, 0),
            Answer::End => Expected::answer(37, 0, 0),
            Answer::Pid(pid) => Expected::answer(38, *pid, 0),
            Answer::Run(pid, None) => Expected::answer(39, *pid, 0),
            Answer::Run(pid, Some((child, message))) => {
                Expected::answer(40, *pid, *child).with_message(message)
            }
            Answer::Fired(fired, stuck) => Expected::answer(41, *fired, *stuck),
            Answer::Exit(pid, _) => Expected::answer(42, *pid, 0),
            Answer::Child(pid, message) => Expected::answer(43, *pid, 0).with_message(message),
            Answer::Refused(number) => Expected::refused(u64::from(*number)),
        }
    }
}

/// What a number is called in the counts.
pub fn name(number: u64) -> String {
    let answer = ANSWERS.iter().find(|answer| answer.0 == number);
    answer.map_or_else(|| format!("refused {number}"), |answer| answer.1.to_string())
}
