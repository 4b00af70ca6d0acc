//! `size` and `make`: their numbers, the bytes of a fresh state, and that
//! nothing is written where they refuse.

use crate::encode::{Rest, encode};
use crate::layout::{Sizes, total};
use crate::library;
use crate::machine::Machine;
use crate::random::{Random, mix};
use crate::trial::Trial;

const MOST: [u64; 5] = [4_096, 4_096, 4_096, 4_096, 65_000];
const MOST_HZ: u64 = 4_294_967_295;
const OUT_OF_RANGE: u64 = 2;
const TOO_SHORT: u64 = 1;

/// The bounds of a range from 1 to `most`, what stands beside them, and numbers
/// that some narrower kind of number would take for one in range.
fn about(most: u64) -> Vec<u64> {
    let mut values = vec![0, 1, 2, most - 1, most, most + 1, u64::MAX, u64::MAX - 1];
    for bits in [8, 16, 31, 32, 48, 63] {
        values.extend([1 << bits, (1 << bits) + 1, (1 << bits) + most]);
    }
    values
}

fn in_range(n: [u64; 5]) -> bool {
    n.iter().zip(MOST).all(|(&n, most)| (1..=most).contains(&n))
}

fn sizes(n: [u64; 5]) -> Sizes {
    let [p, r, q, k, c] = n.map(|n| n as usize);
    Sizes { p, r, q, k, c }
}

/// Sizes about each bound, one at a time and several at once.
fn trials(rng: &mut Random) -> Vec<[u64; 5]> {
    let mut trials = Vec::new();
    for at in 0..5 {
        for value in about(MOST[at]) {
            let mut n = [3, 4, 5, 6, 7];
            n[at] = value;
            trials.push(n);
        }
    }
    for _ in 0..300 {
        let mut n = [0; 5];
        for (at, value) in n.iter_mut().enumerate() {
            *value = if rng.percent(30) { rng.of(&about(MOST[at])) } else { 1 + rng.up_to(40) };
        }
        trials.push(n);
    }
    trials.push(MOST);
    trials.push([1; 5]);
    trials
}

pub fn run(t: &mut Trial, rng: &mut Random) -> (u64, u64) {
    let trials = trials(rng);
    let mut made = 0;
    for &n in &trials {
        size(t, n);
        made += make(t, n, 1 + rng.up_to(MOST_HZ - 1), rng);
    }
    for hz in about(MOST_HZ) {
        made += make(t, [1, 2, 3, 4, 5], hz, rng);
        made += make(t, [1, 2, 3, 4, 0], hz, rng);
    }
    (trials.len() as u64, made)
}

fn size(t: &mut Trial, n: [u64; 5]) {
    let wanted = if in_range(n) { total(sizes(n)) as u64 } else { OUT_OF_RANGE };
    let got = library::size(n);
    t.must(got == wanted, || format!("size{n:?} answers {got}, not {wanted}"));
}

/// Makes states in buffers of several lengths.  How many calls?
fn make(t: &mut Trial, n: [u64; 5], hz: u64, rng: &mut Random) -> u64 {
    let fits = in_range(n) && (1..=MOST_HZ).contains(&hz);
    if !fits {
        let lengths = [0, 1, 79, 80, 20_000];
        lengths.iter().for_each(|&length| refused(t, n, hz, length, OUT_OF_RANGE, rng));
        return lengths.len() as u64;
    }
    let whole = total(sizes(n));
    let short: &[usize] = &[0, 1, 79, 80, whole / 2, whole - 1];
    let long: &[usize] = &[whole, whole + 1, whole + 4_097];
    // Of a large state, only the lengths next to it.
    let (short, long) = if whole > 200_000 { (&short[5..], &long[..2]) } else { (short, long) };
    short.iter().for_each(|&length| refused(t, n, hz, length, TOO_SHORT, rng));
    long.iter().for_each(|&length| made(t, n, hz, length, rng));
    (short.len() + long.len()) as u64
}

/// A buffer with a pattern, and where in it the lent part begins.
fn pattern(length: usize, rng: &mut Random) -> (Vec<u8>, usize) {
    let (seed, from) = (rng.bits(), rng.below(9));
    let bytes = (0..from + length + 16).map(|at| mix(seed ^ at as u64) as u8).collect();
    (bytes, from)
}

fn refused(t: &mut Trial, n: [u64; 5], hz: u64, length: usize, wanted: u64, rng: &mut Random) {
    let (mut bytes, from) = pattern(length, rng);
    let before = bytes.clone();
    let got = library::make(&mut bytes[from..from + length], n, hz);
    t.must(got == wanted, || {
        format!("make{n:?} {hz} in {length} bytes answers {got}, not {wanted}")
    });
    t.must(bytes == before, || format!("make{n:?} {hz} in {length} bytes is refused and writes"));
}

fn made(t: &mut Trial, n: [u64; 5], hz: u64, length: usize, rng: &mut Random) {
    let (mut bytes, from) = pattern(length, rng);
    let mut wanted = bytes.clone();
    let fresh = encode(&Machine::fresh(sizes(n), hz), Rest::Zero);
    wanted[from..from + fresh.len()].copy_from_slice(&fresh);
    let got = library::make(&mut bytes[from..from + length], n, hz);
    t.must(got == 0, || format!("make{n:?} {hz} in {length} bytes answers {got}, not 0"));
    let differs = (0..bytes.len()).find(|&at| bytes[at] != wanted[at]);
    t.must(differs.is_none(), || {
        format!(
            "make{n:?} {hz} in {length} bytes: byte {:?} is not as it should be",
            differs.map(|at| at as i64 - from as i64)
        )
    });
    let formed = t.plain("made", &mut bytes[from..from + length], &wanted[from..from + length]);
    t.must(formed, || format!("make{n:?} {hz}: the state is not well formed"));
}
