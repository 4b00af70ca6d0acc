//! The functions under test.  A slice passes as a pointer and a length.

use crate::expected;
use std::fmt;

unsafe extern "C" {
    #[link_name = "step"]
    fn c_step(
        s: *mut u8,
        s_len: usize,
        b: *const u8,
        b_len: usize,
        message: *mut u8,
        message_len: usize,
        first: *mut u64,
        second: *mut u64,
        length: *mut u64,
    ) -> u64;
    #[link_name = "run"]
    fn c_run(
        s: *mut u8,
        s_len: usize,
        steps: *const u8,
        steps_len: usize,
        answers: *mut u8,
        answers_len: usize,
    ) -> u64;
}

pub use outside::library::{make, size};

/// The number that `step` gives and the words that it writes.
#[derive(Clone, Copy, PartialEq, Eq, Debug)]
pub struct Words {
    pub number: u64,
    pub first: u64,
    pub second: u64,
    pub length: u64,
}

/// What the words hold before a call.
pub const UNTOUCHED: [u64; 3] = [0x1122_3344_5566_7788, 0x99aa_bbcc_ddee_ff00, 0x0f1e_2d3c_4b5a];

impl Words {
    pub fn are_untouched(&self) -> bool {
        [self.first, self.second, self.length] == UNTOUCHED
    }
}

impl fmt::Display for Words {
    fn fmt(&self, f: &mut fmt::Formatter) -> fmt::Result {
        let Words { number, first, second, length } = self;
        write!(f, "{number} ({})", expected::name(*number))?;
        match self.are_untouched() {
            true => write!(f, ", no words"),
            false => write!(f, ", words {first}, {second} and {length}"),
        }
    }
}

pub fn step(s: &mut [u8], b: &[u8], message: &mut [u8]) -> Words {
    let [mut first, mut second, mut length] = UNTOUCHED;
    // SAFETY: all that is lent is alive and apart.
    let number = unsafe {
        let (s, s_len) = (s.as_mut_ptr(), s.len());
        let (message, message_len) = (message.as_mut_ptr(), message.len());
        let (first, second, length) = (&raw mut first, &raw mut second, &raw mut length);
        c_step(s, s_len, b.as_ptr(), b.len(), message, message_len, first, second, length)
    };
    Words { number, first, second, length }
}

pub fn run(s: &mut [u8], steps: &[u8], answers: &mut [u8]) -> u64 {
    let (answers, answers_len) = (answers.as_mut_ptr(), answers.len());
    // SAFETY: the three slices are alive and apart.
    unsafe { c_run(s.as_mut_ptr(), s.len(), steps.as_ptr(), steps.len(), answers, answers_len) }
}

/// Whether `check` finds the bytes well formed.
pub fn check(s: &mut [u8]) -> bool {
    match outside::library::check(s) {
        Some(0) => false,
        Some(1) => true,
        other => panic!("check is not linked, or answers no bool: {other:?}"),
    }
}
