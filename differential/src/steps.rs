//! Lines with fields in range, or one at or beyond a bound, and bytes that are
//! no step.

use crate::bytes::{Fields, KINDS, is_step};
use oracle::random::Random;
use oracle::sizes::Sizes;

/// What a field's numbers are.
#[derive(Clone, Copy)]
enum Range {
    Below(u64),
    Flags,
    Seconds,
    Nanoseconds,
    Now,
}
use Range::*;

const LAST_READING: u64 = (1 << 51) - 1;
const SECOND: u64 = 1_000_000_000;

/// The fields of a kind, by docs/STEPS.md.
fn ranges(word: &str, sizes: &Sizes) -> Vec<Range> {
    let rendez = Below(sizes.rendez as u64);
    let timer = Below(sizes.timers as u64);
    let (condition, flag) = (Below(256), Below(2));
    match word {
        "start" => vec![Below(3)],
        "rfork" => vec![Flags, Below(4)],
        "sleep" => vec![rendez, condition],
        "tsleep" => vec![rendez, condition, Seconds, Nanoseconds, Now],
        "wakeup" => vec![rendez],
        "qlock" | "canqlock" | "qunlock" => vec![Below(sizes.locks as u64)],
        "cond" => vec![condition, flag],
        "clock" | "intr" => vec![Now],
        "tadd" => vec![timer, flag, Seconds, Nanoseconds, rendez, Now],
        "tdel" => vec![timer],
        _ => Vec::new(),
    }
}

/// Any step, with its fields in range.  `now` is the last accepted reading.
pub fn line(random: &mut Random, sizes: &Sizes, now: u64) -> String {
    let (word, fields) = random.pick(&KINDS);
    if fields == Fields::Bytes {
        let length = random.pick(&[0, 1, 4, 12, 28]);
        return format!("{word} {}", "stowage plan, bay 7, tier 82".get(..length).unwrap_or("x"));
    }
    numbers(random, word, &ranges(word, sizes), usize::MAX, now)
}

/// A step with numbers, all in range but one.
pub fn odd_line(random: &mut Random, sizes: &Sizes, now: u64) -> String {
    loop {
        let word = random.pick(&KINDS).0;
        let ranges = ranges(word, sizes);
        if !ranges.is_empty() {
            let odd = random.below(ranges.len() as u64) as usize;
            return numbers(random, word, &ranges, odd, now);
        }
    }
}

fn numbers(random: &mut Random, word: &str, ranges: &[Range], odd: usize, now: u64) -> String {
    let mut line = if random.chance(10) { format!("i {word}") } else { word.to_string() };
    for (at, &range) in ranges.iter().enumerate() {
        let number = if at == odd { beyond(random, range) } else { within(random, range, now) };
        line += &format!(" {number}");
    }
    line
}

/// A number in range, mostly a common one.
fn within(random: &mut Random, range: Range, now: u64) -> u64 {
    let any = random.bits();
    match range {
        Below(limit) => random.pick(&[0, 0, 1, any]) % limit,
        Flags => random.pick(&[16, 16, 16, 80, 20, 0, any & 0xffff]),
        Seconds => random.pick(&[0, 1, 5, 1 << 30]),
        Nanoseconds => random.pick(&[0, 500, 100_000, 10_000_000, SECOND - 1]),
        Now => now,
    }
}

/// A number at the bound or beyond, some with the low bits of one in range.
fn beyond(random: &mut Random, range: Range) -> u64 {
    let limit = match range {
        Below(limit) => limit,
        Flags => 1 << 32,
        Seconds => 1 << 40,
        Nanoseconds => SECOND,
        Now => LAST_READING + 1,
    };
    let low = random.below(limit.min(1_000));
    let far = [8, 16, 32, 48, 63].map(|bit| (1u64 << bit) + low);
    let far = random.pick(&far).max(limit);
    let any = random.bits().max(limit);
    random.pick(&[limit, limit, limit + 1, far, far, far, u64::MAX, u64::MAX - low, any])
}

/// Bytes that are no step, made from those of one.
pub fn no_step(random: &mut Random, step: &[u8]) -> Vec<u8> {
    loop {
        let bytes = changed(random, step);
        if !is_step(&bytes) {
            return bytes;
        }
    }
}

/// Bytes like those of a step.
pub fn changed(random: &mut Random, step: &[u8]) -> Vec<u8> {
    let mut bytes = step.to_vec();
    let first = bytes.first().copied().unwrap_or_default();
    bytes.resize(bytes.len().max(2), 0);
    match random.below(9) {
        0 => bytes.truncate(random.below(bytes.len() as u64) as usize),
        1 => bytes.extend((0..1 + random.below(20)).map(|at| at as u8)),
        2 => bytes[0] = random.pick(&[0, 20, 21, 127, 128, 255]),
        3 => bytes[0] = 1 + random.below(19) as u8,
        4 => bytes[1] = random.pick(&[2, 3, 128, 255]),
        5 => bytes = length_astray(random),
        6 => bytes.clear(),
        7 => bytes[0] = first ^ 1 << random.below(8),
        _ => bytes = (0..random.below(60)).map(|_| random.bits() as u8).collect(),
    }
    bytes
}

/// A name or a status with another length than it says.
fn length_astray(random: &mut Random) -> Vec<u8> {
    let text = random.below(30) as u32;
    let said = random.pick(&[text.wrapping_sub(1), text + 1, text + 256, text + 65_536, u32::MAX]);
    let mut bytes = vec![random.pick(&[3, 18]), 0];
    bytes.extend(said.to_le_bytes());
    bytes.extend((0..text).map(|at| b'a' + at as u8 % 26));
    bytes
}
