//! A line of a list, as the step it names.

use crate::sizes::{CONDITIONS, Sizes};
use std::time::Duration;

/// The longest line, with its mark and without its newline.
const LINE_MAX: usize = 4096;
pub const NAME_MAX: usize = 28;

#[derive(Clone, Debug, PartialEq)]
pub enum Step {
    Start { m: u64 },
    Rfork { flags: u32, m: u64 },
    Name(Vec<u8>),
    Sched,
    Yield,
    Sleep { r: usize, c: usize },
    Tsleep { r: usize, c: usize, d: Duration, now: u64 },
    Wakeup { r: usize },
    Qlock { q: usize },
    Canqlock { q: usize },
    Qunlock { q: usize },
    Cond { c: usize, v: bool },
    Clock { now: u64 },
    Tadd { t: usize, periodic: bool, d: Duration, r: usize, now: u64 },
    Tdel { t: usize },
    Intr { now: u64 },
    Due,
    Exit(Vec<u8>),
    Wait,
}

/// The step and whether it is marked, or None where the line is no step or a
/// field is out of range (number 2).
pub fn line(line: &[u8], sizes: &Sizes) -> Option<(bool, Step)> {
    if line.len() > LINE_MAX {
        return None;
    }
    let rest = line.strip_prefix(b"i ");
    Some((rest.is_some(), step(rest.unwrap_or(line), sizes)?))
}

fn step(line: &[u8], sizes: &Sizes) -> Option<Step> {
    let (word, rest) = match line.iter().position(|&b| b == b' ') {
        Some(at) => (&line[..at], Some(&line[at + 1..])),
        None => (line, None),
    };
    match word {
        b"name" => bytes(rest).filter(|name| name.len() <= NAME_MAX).map(Step::Name),
        b"exit" => bytes(rest).map(Step::Exit),
        _ => numbered(word, &numbers(rest)?, sizes),
    }
}

fn bytes(rest: Option<&[u8]>) -> Option<Vec<u8>> {
    Some(rest.unwrap_or_default().to_vec())
}

/// The fields after the step's word: numbers, one space apart.
fn numbers(rest: Option<&[u8]>) -> Option<Vec<u64>> {
    match rest {
        None => Some(Vec::new()),
        Some(rest) => rest.split(|&b| b == b' ').map(number).collect(),
    }
}

/// Digits, leading zeros allowed, as a number of 64 bits.
fn number(field: &[u8]) -> Option<u64> {
    if field.is_empty() {
        return None;
    }
    field.iter().try_fold(0u64, |n, &b| {
        let digit = b.is_ascii_digit().then(|| u64::from(b - b'0'))?;
        n.checked_mul(10)?.checked_add(digit)
    })
}

fn numbered(word: &[u8], fields: &[u64], sizes: &Sizes) -> Option<Step> {
    let rendez = |n| below(n, sizes.rendez);
    let lock = |n| below(n, sizes.locks);
    Some(match (word, fields) {
        (b"start", &[m]) => Step::Start { m: at_most(m, 2)? },
        (b"rfork", &[f, m]) => Step::Rfork { flags: u32::try_from(f).ok()?, m: at_most(m, 3)? },
        (b"sched", []) => Step::Sched,
        (b"yield", []) => Step::Yield,
        (b"sleep", &[r, c]) => Step::Sleep { r: rendez(r)?, c: condition(c)? },
        (b"tsleep", &[r, c, s, n, now]) => {
            Step::Tsleep { r: rendez(r)?, c: condition(c)?, d: duration(s, n)?, now }
        }
        (b"wakeup", &[r]) => Step::Wakeup { r: rendez(r)? },
        (b"qlock", &[q]) => Step::Qlock { q: lock(q)? },
        (b"canqlock", &[q]) => Step::Canqlock { q: lock(q)? },
        (b"qunlock", &[q]) => Step::Qunlock { q: lock(q)? },
        (b"cond", &[c, v]) => Step::Cond { c: condition(c)?, v: flag(v)? },
        (b"clock", &[now]) => Step::Clock { now },
        (b"tadd", &[t, kind, s, n, r, now]) => Step::Tadd {
            t: kernel_timer(t, sizes)?,
            periodic: flag(kind)?,
            d: duration(s, n)?,
            r: rendez(r)?,
            now,
        },
        (b"tdel", &[t]) => Step::Tdel { t: kernel_timer(t, sizes)? },
        (b"intr", &[now]) => Step::Intr { now },
        (b"due", []) => Step::Due,
        (b"wait", []) => Step::Wait,
        _ => return None,
    })
}

fn at_most(n: u64, most: u64) -> Option<u64> {
    (n <= most).then_some(n)
}

fn below(n: u64, limit: usize) -> Option<usize> {
    usize::try_from(n).ok().filter(|&n| n < limit)
}

fn flag(n: u64) -> Option<bool> {
    at_most(n, 1).map(|n| n == 1)
}

fn condition(n: u64) -> Option<usize> {
    below(n, CONDITIONS)
}

/// A kernel timer that a step may name: any but timer 0.
fn kernel_timer(n: u64, sizes: &Sizes) -> Option<usize> {
    below(n, sizes.timers).filter(|&t| t > 0)
}

/// A number of 64 bits in an argument, in digits alone: no sign.
pub fn digits(text: &str) -> Option<u64> {
    number(text.as_bytes())
}

fn duration(s: u64, n: u64) -> Option<Duration> {
    (n < 1_000_000_000).then(|| Duration::new(s, n as u32))
}
