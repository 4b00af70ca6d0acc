//! How long `check` takes.

use crate::encode::{Rest, encode};
use crate::layout::*;
use crate::library;
use crate::random::Random;
use crate::simulate::{self, Wish};
use std::time::Instant;

const RUNS: usize = 30;

/// Milliseconds, the best of several runs, and the answer.
fn best(bytes: &mut [u8]) -> Option<(f64, u8)> {
    let mut best = f64::MAX;
    let mut answer = 0;
    for _ in 0..RUNS {
        let start = Instant::now();
        answer = library::check(bytes)?;
        best = best.min(start.elapsed().as_secs_f64() * 1_000.0);
    }
    Some((best, answer))
}

fn rich(part: usize) -> (Sizes, Vec<u8>) {
    let mut rng = Random::new(5);
    let mut wish: Wish = simulate::large(true);
    let z = wish.z;
    wish.z = Sizes { p: z.p / part, r: z.r / part, q: z.q / part, k: z.k / part, c: z.c / part };
    let machine = simulate::rich(wish, &mut rng);
    (wish.z, encode(&machine, Rest::Of(1)))
}

fn show(what: &str, bytes: &mut [u8]) -> Option<f64> {
    let (time, answer) = best(bytes)?;
    println!("{what:<52} {time:>8.3} ms, {} bytes, answer {answer}", bytes.len());
    Some(time)
}

/// Prints the times at the largest sizes and at half of them, and their ratio;
/// then of states that are made to be walked for long.
pub fn run() -> Option<()> {
    let (z, mut whole) = rich(1);
    let (_, mut half) = rich(2);
    let long = show("rich, P = R = Q = K = 4,096, C = 65,000", &mut whole)?;
    let short = show("rich, half of each", &mut half)?;
    println!("{:<52} {:>8.3}", "ratio", long / short);
    show("every lock's queue is one queue of all records", &mut one_long_queue(&whole, z))?;
    show("every wait queue is one chain of all cells", &mut one_long_chain(&whole, z))?;
    Some(())
}

/// All records wait for a lock, so that each may have a link.
fn one_long_queue(state: &[u8], z: Sizes) -> Vec<u8> {
    let mut bytes = state.to_vec();
    for i in 0..z.p {
        STATE_OF.set(&mut bytes, z, i, 3);
        RESUME_KIND.set(&mut bytes, z, i, 3);
        RESUME_OBJECT.set(&mut bytes, z, i, (i % z.q) as u64);
        RESUME_CONDITION.set(&mut bytes, z, i, 0);
        NEXT.set(&mut bytes, z, i, (i as u64 + 2) % (z.p as u64 + 1));
    }
    for q in 0..z.q {
        HELD.set(&mut bytes, z, q, 1);
        LOCK_HEAD.set(&mut bytes, z, q, 1);
        LOCK_TAIL.set(&mut bytes, z, q, z.p as u64);
    }
    bytes
}

fn one_long_chain(state: &[u8], z: Sizes) -> Vec<u8> {
    let mut bytes = state.to_vec();
    for c in 0..z.c {
        CELL_NEXT.set(&mut bytes, z, c, (c as u64 + 2) % (z.c as u64 + 1));
    }
    for i in 0..z.p {
        EXITS.set(&mut bytes, z, i, 1);
        NEXITS.set(&mut bytes, z, i, 128);
    }
    bytes
}
