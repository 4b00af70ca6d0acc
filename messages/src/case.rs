//! Names, pids and statuses to try.

use oracle::ERRMAX;
pub use oracle::parse::NAME_MAX;
use oracle::random::Random;
use std::fmt;

pub const MESSAGE_MAX: usize = ERRMAX - 1;
/// The digits of the greatest pid.
const DIGITS_MAX: u32 = 20;

/// What a message is made of.
#[derive(Clone, Debug, PartialEq)]
pub struct Case {
    pub name: Vec<u8>,
    pub pid: u64,
    pub status: Vec<u8>,
}

impl Case {
    pub fn any(random: &mut Random) -> Case {
        let (name, pid) = (name(random), pid(random));
        let length = length(random, MESSAGE_MAX - front(&name, pid));
        Case { status: bytes(random, length), name, pid }
    }

    /// How long the message would be if it were never cut.
    pub fn whole(&self) -> usize {
        if self.status.is_empty() { 0 } else { front(&self.name, self.pid) + self.status.len() }
    }
}

impl fmt::Display for Case {
    fn fmt(&self, f: &mut fmt::Formatter) -> fmt::Result {
        let (name, status) = (self.name.escape_ascii(), self.status.escape_ascii());
        write!(f, "name '{name}', pid {}, status '{status}'", self.pid)
    }
}

/// The bytes before the status: the name up to its first zero byte, a space,
/// the pid, a colon and a space.
fn front(name: &[u8], pid: u64) -> usize {
    let end = name.iter().position(|&byte| byte == 0).unwrap_or(name.len());
    end + format!(" {pid}: ").len()
}

/// Any name: without a zero byte, with some anywhere, or filled up with them
/// as a record holds it.
fn name(random: &mut Random) -> Vec<u8> {
    let length = random.below(NAME_MAX as u64 + 1) as usize;
    let mut name = bytes(random, length);
    name.truncate(NAME_MAX);
    let zeros = random.pick(&[0, 0, 5, 30]);
    for byte in &mut name {
        *byte = if random.chance(zeros) { 0 } else { (*byte).max(1) };
    }
    if random.chance(30) {
        name.resize(NAME_MAX, 0);
    }
    name
}

/// A pid of any number of digits, often the least or the greatest of them.
fn pid(random: &mut Random) -> u64 {
    let digits = random.below(DIGITS_MAX.into()) as u32;
    let least = if digits == 0 { 0 } else { 10u64.pow(digits) };
    let greatest = 10u64.checked_pow(digits + 1).map_or(u64::MAX, |next| next - 1);
    let any = least + random.bits() % (greatest - least + 1);
    random.pick(&[least, greatest, any, any, any, any])
}

/// The length of a status with which the message is 127 bytes long where the
/// status has `room`.
fn length(random: &mut Random, room: usize) -> usize {
    let near = room - 5 + random.below(11) as usize;
    let over = room + random.below(150) as usize;
    let far = 1_000 + random.below(4_000) as usize;
    let short = 1 + random.below(room as u64) as usize;
    random.weighted(&[(10, 0), (25, short), (40, near), (20, over), (5, far)])
}

/// About `length` bytes of one sort.
fn bytes(random: &mut Random, length: usize) -> Vec<u8> {
    match random.below(6) {
        0 => (0..length).map(|_| b'a' + random.below(26) as u8).collect(),
        1 => characters(random, length),
        2 => broken(random, length),
        3 => (0..length).map(|_| random.bits() as u8).collect(),
        4 => continuations(random, length),
        _ => a_run(random, length),
    }
}

/// Whole characters of one to four bytes each in UTF-8.
fn characters(random: &mut Random, length: usize) -> Vec<u8> {
    const FIRST_OF_EACH: [u32; 5] = [0x20, 0x80, 0x800, 0x1_0000, 0x11_0000];
    let mut text = String::new();
    while text.len() < length {
        let size = random.below(4) as usize;
        let (low, high) = (FIRST_OF_EACH[size], FIRST_OF_EACH[size + 1]);
        text.extend(char::from_u32(low + random.below((high - low).into()) as u32));
    }
    text.into_bytes()
}

/// Characters of which some bytes are lost, or are others.
fn broken(random: &mut Random, length: usize) -> Vec<u8> {
    let mut text = characters(random, length);
    text.retain(|_| !random.chance(5));
    for byte in &mut text {
        *byte = if random.chance(5) { random.bits() as u8 } else { *byte };
    }
    text
}

/// Bytes that are 10xxxxxx in binary.
fn continuations(random: &mut Random, length: usize) -> Vec<u8> {
    (0..length).map(|_| 0x80 + random.below(0x40) as u8).collect()
}

/// Characters with a run of bytes 10xxxxxx among them.
fn a_run(random: &mut Random, length: usize) -> Vec<u8> {
    let mut text = characters(random, length);
    let at = random.below(text.len() as u64 + 1) as usize;
    let run = random.below((text.len() - at) as u64 + 1) as usize;
    let other = continuations(random, run);
    text[at..at + run].copy_from_slice(&other);
    text
}
