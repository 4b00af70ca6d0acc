//! Calls of `exit_message`, and what they must leave.

use crate::case::{Case, MESSAGE_MAX, NAME_MAX};
use crate::library;
use oracle::random::Random;

/// The answer where the cell is too short or the name too long.
pub const REFUSED: u64 = 258;

/// What is lent to a call: a cell at any address, with bytes around it.
pub struct Lent {
    case: Case,
    memory: Vec<u8>,
    before: usize,
    cell_len: usize,
}

impl Lent {
    pub fn any(random: &mut Random, case: &Case) -> Lent {
        let more = random.pick(&[0, 0, 1, 29, 127]);
        Lent::of(random, case.clone(), MESSAGE_MAX + more)
    }

    /// A cell under 127 bytes, or a name over 28, or both.
    pub fn refused(random: &mut Random, case: &Case) -> Lent {
        let mut case = case.clone();
        let short = random.below(MESSAGE_MAX as u64) as usize;
        let long = NAME_MAX + 1 + random.below(100) as usize;
        let cell_len = random.pick(&[MESSAGE_MAX, MESSAGE_MAX + 9, MESSAGE_MAX - 1, short]);
        let name_len = random.pick(&[NAME_MAX + 1, long]);
        if cell_len >= MESSAGE_MAX || random.chance(20) {
            case.name.resize(name_len, b'n');
        }
        Lent::of(random, case, cell_len)
    }

    fn of(random: &mut Random, case: Case, cell_len: usize) -> Lent {
        let (before, behind) = (random.below(9) as usize, 8);
        let memory = (0..before + cell_len + behind).map(|_| random.bits() as u8).collect();
        Lent { case, memory, before, cell_len }
    }

    /// Call `exit_message`: it must answer this, and leave the message at the
    /// front of the cell and every other byte as it was.
    pub fn call(self, answer: u64, message: &[u8]) -> Result<(), String> {
        let Lent { case, mut memory, before, cell_len } = self;
        let (mut expected, kept) = (memory.clone(), case.clone());
        expected[before..before + message.len()].copy_from_slice(message);
        let cell = &mut memory[before..before + cell_len];
        let given = library::exit_message(cell, &case.name, case.pid, &case.status);
        if given == answer && memory == expected && case == kept {
            return Ok(());
        }
        let (are, must) = (memory.escape_ascii(), expected.escape_ascii());
        Err(format!(
            "a difference at {kept}, a cell of {cell_len} bytes with {before} before it:\n\
             answer {given}, must be {answer}\nbytes   {are}\nmust be {must}"
        ))
    }
}
