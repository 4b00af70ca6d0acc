//! Lent memory: a state and a message buffer, each with other bytes around it,
//! and what a call must leave in them.

use crate::expected::{Expected, NO_MEMORY};
use crate::library::{self, Words};
use crate::pages::Pages;
use crate::unused;
use oracle::random::Random;
use oracle::sizes;
use outside::layout::{NEXT_PID, Sizes, locate, total};
use std::ops::Range;

/// A state that is lent with bytes behind it, at any address.
pub struct Lent {
    pub z: Sizes,
    memory: Pages,
    from: usize,
    /// How many bytes are lent.
    length: usize,
    /// The bytes behind the state.
    must_be_behind: Vec<u8>,
}

pub fn layout_sizes(s: &sizes::Sizes) -> Sizes {
    Sizes { p: s.processes, r: s.rendez, q: s.locks, k: s.timers, c: s.cells }
}

impl Lent {
    /// A fresh state, made by `make`.
    pub fn fresh(s: &sizes::Sizes, random: &mut Random) -> Result<Lent, String> {
        let z = layout_sizes(s);
        let numbers = [z.p, z.r, z.q, z.k, z.c].map(|n| n as u64);
        let size = library::size(numbers);
        if size != total(z) as u64 {
            return Err(format!("size says {size}, by docs/STATE.md it is {}", total(z)));
        }
        let (from, behind) = (random.below(9) as usize, random.pick(&[0, 1, 64, 200]));
        let length = total(z) + behind;
        let must_be_behind: Vec<u8> = (0..behind + 16).map(|_| random.bits() as u8).collect();
        let mut memory = Pages::new(from + length + 16);
        memory[..from].fill(BEFORE_IT);
        memory[from + total(z)..].copy_from_slice(&must_be_behind);
        let mut lent = Lent { z, memory, from, length, must_be_behind };
        match library::make(lent.bytes(), numbers, s.hz) {
            0 => lent.around().map(|()| lent),
            number => Err(format!("make says {number}")),
        }
    }

    /// Fill what the machine has no use for, by the seed.
    pub fn fill_unused(&mut self, seed: u64) -> Result<(), String> {
        let z = self.z;
        unused::fill(self.bytes(), z, &mut Random::new(seed));
        let wrong = "check finds the fresh state with unused bytes filled not well formed";
        self.around()?;
        self.is_formed().then_some(()).ok_or(wrong.to_string())
    }

    /// What is lent.
    fn bytes(&mut self) -> &mut [u8] {
        &mut self.memory[self.from..self.from + self.length]
    }

    pub fn state(&self) -> &[u8] {
        &self.memory[self.from..self.from + total(self.z)]
    }

    pub fn is_formed(&mut self) -> bool {
        library::check(self.bytes())
    }

    /// Call `step`: it must answer what is expected, and write nothing else.
    pub fn step(
        &mut self,
        bytes: &[u8],
        message: &mut Message,
        expected: &Expected,
    ) -> Result<(), String> {
        let call = |state: &mut [u8]| library::step(state, bytes, message.bytes());
        let (words, left) = self.watched(bytes, expected, call);
        answers(words, message, expected)?;
        left
    }

    /// Have a call take a step, and say what it did to the memory that it must
    /// not.  Where the step must be refused the memory is read-only.
    pub fn watched<T>(
        &mut self,
        bytes: &[u8],
        expected: &Expected,
        call: impl FnOnce(&mut [u8]) -> T,
    ) -> (T, Result<(), String>) {
        let lent = self.from..self.from + self.length;
        let (value, left) = if uses_up_a_pid(bytes, expected.words.number) {
            self.that_uses_up_a_pid(call)
        } else if is_read_only(bytes, expected) {
            let (value, written) = self.memory.read_only(|memory| call(&mut memory[lent]));
            let wrong = |at| Err(format!("refused, and writes {}", self.locate(at)));
            (value, written.map_or(Ok(()), wrong))
        } else {
            (call(&mut self.memory[lent]), Ok(()))
        };
        (value, left.and_then(|()| self.around()))
    }

    /// The refusal that changes the next pid, and no other byte.
    fn that_uses_up_a_pid<T>(
        &mut self,
        call: impl FnOnce(&mut [u8]) -> T,
    ) -> (T, Result<(), String>) {
        let mut twin = self.state().to_vec();
        let next = NEXT_PID.get(&twin, self.z, 0) + 1;
        NEXT_PID.set(&mut twin, self.z, 0, next);
        let value = call(self.bytes());
        let differs = self.state().iter().zip(&twin).position(|(is, must)| is != must);
        let wrong = |at| Err(format!("refused, and changes {}", locate(self.z, at)));
        (value, differs.map_or(Ok(()), wrong))
    }

    /// Call `run`: how many steps it says it took.
    pub fn run(&mut self, steps: &[u8], answers: &mut [u8]) -> Result<u64, String> {
        let taken = library::run(self.bytes(), steps, answers);
        self.around().map(|()| taken)
    }

    /// What stands at a byte of the memory.
    fn locate(&self, at: usize) -> String {
        match at.checked_sub(self.from) {
            None => "before the state".to_string(),
            Some(at) => locate(self.z, at),
        }
    }

    fn behind(&self) -> Range<usize> {
        self.from + total(self.z)..self.memory.len()
    }

    /// The bytes around the state are as they were.
    fn around(&self) -> Result<(), String> {
        let before = self.memory[..self.from].iter().all(|&byte| byte == BEFORE_IT);
        let same = before && self.memory[self.behind()] == self.must_be_behind;
        same.then_some(()).ok_or("bytes before or behind the state are changed".to_string())
    }
}

/// What stands before a state.
const BEFORE_IT: u8 = 0xa5;

/// A call has answered what is expected.
fn answers(words: Words, message: &Message, expected: &Expected) -> Result<(), String> {
    if words != expected.words {
        return Err(format!("step answers {words}\nmust be      {}", expected.words));
    }
    message.must_hold(&expected.message)
}

/// Whether a call must leave every byte of the state.
pub fn is_read_only(bytes: &[u8], expected: &Expected) -> bool {
    expected.is_refusal() && !uses_up_a_pid(bytes, expected.words.number)
}

/// An rfork whose page copy fails uses up a pid.
pub fn uses_up_a_pid(bytes: &[u8], number: u64) -> bool {
    number == NO_MEMORY && bytes[0] == 2 && bytes[10] == 3
}

const ROOM: usize = 240;
const BEFORE: usize = 8;

/// A message buffer, with other bytes around it.
pub struct Message {
    memory: [u8; ROOM],
    length: usize,
}

fn pattern() -> [u8; ROOM] {
    std::array::from_fn(|at| at as u8 ^ 0xc7)
}

impl Message {
    /// One that a step takes.
    pub fn any(random: &mut Random) -> Message {
        Message::of(random.pick(&[127, 127, 128, 128, 129, 200]))
    }

    /// One that is too short for any step.
    pub fn short(random: &mut Random) -> Message {
        let any = random.below(127) as usize;
        Message::of(random.pick(&[0, 1, 126, 126, any]))
    }

    fn of(length: usize) -> Message {
        Message { memory: pattern(), length }
    }

    fn bytes(&mut self) -> &mut [u8] {
        &mut self.memory[BEFORE..BEFORE + self.length]
    }

    /// The message is at the front; every other byte is as it was.
    fn must_hold(&self, message: &[u8]) -> Result<(), String> {
        let mut expected = pattern();
        expected[BEFORE..BEFORE + message.len()].copy_from_slice(message);
        if self.memory == expected {
            return Ok(());
        }
        let (is, must) = (self.memory.escape_ascii(), expected.escape_ascii());
        Err(format!(
            "a message buffer of {} bytes from byte {BEFORE}\nholds   {is}\nmust be {must}",
            self.length
        ))
    }
}
