//! Many parts, each in a process of its own, two at a time.  A list needs one,
//! since r9 keeps its next pid, ticks and timer queue in statics; and of a
//! part that ends by a signal it can be said which it was.

use crate::counts::Counts;
use crate::plan::Plan;
use oracle::random::Random;
use std::io::{self, Write};
use std::process::Command;
use std::sync::Mutex;
use std::thread;

const AT_A_TIME: usize = 2;
/// What every part counts once, at its end.
pub const DONE: &str = "parts";
/// What runs a list: one in a state that is not large, and one in a large state.
pub const LISTS: [&str; 2] = ["list", "large"];
/// Of a hundred steps so many are taken in large states.
const LARGE_PERCENT: u64 = 6;
/// Calls of a part with damaged states.
const CALLS: u64 = 100_000;

/// Arguments of this program: what to do, a number and a seed.
pub type Part = (&'static str, u64, u64);

struct Shared {
    left: Vec<Part>,
    counts: Counts,
    /// The first that went wrong.
    wrong: Option<String>,
}

/// Run these parts.
pub fn run(mut left: Vec<Part>) -> Result<Counts, String> {
    left.reverse();
    let shared = Mutex::new(Shared { left, counts: Counts::default(), wrong: None });
    thread::scope(|scope| {
        for _ in 0..AT_A_TIME {
            scope.spawn(|| while one(&shared) {});
        }
    });
    let Shared { counts, wrong, .. } = shared.into_inner().expect("no thread ended early");
    wrong.map_or(Ok(counts), Err)
}

/// Lists of so many steps in all.
pub fn lists(steps: u64, seed: u64) -> Vec<Part> {
    let (mut random, mut parts) = (Random::new(seed), Vec::new());
    // Of the other lists and of those in large states: how many, and their steps.
    let (mut counts, mut planned) = ([0; 2], [0; 2]);
    while planned[0] + planned[1] < steps {
        let is_large = 100 * planned[1] < LARGE_PERCENT * (planned[0] + planned[1]);
        let (kind, seed) = (usize::from(is_large), random.bits());
        planned[kind] += Plan::of(counts[kind], seed, is_large).count;
        parts.push((LISTS[kind], counts[kind], seed));
        counts[kind] += 1;
    }
    parts
}

/// So many calls of `step` on damaged states.
pub fn damages(calls: u64, seed: u64) -> Vec<Part> {
    let mut random = Random::new(seed);
    let sizes = (0..calls).step_by(CALLS as usize).map(|done| CALLS.min(calls - done));
    sizes.map(|size| ("damage", size, random.bits())).collect()
}

/// Run the next part; false where there is none, or one went wrong.
fn one(shared: &Mutex<Shared>) -> bool {
    let lock = || shared.lock().expect("no thread ended early");
    let Some(part) = lock().left.pop() else { return false };
    let result = child(part);
    let mut shared = lock();
    match result {
        Ok(counts) => shared.counts.merge(&counts),
        Err(why) => {
            shared.left.clear();
            shared.wrong.get_or_insert(why);
        }
    }
    shared.wrong.is_none()
}

/// A process of its own for a part.
pub fn child((what, number, seed): Part) -> Result<Counts, String> {
    let program = std::env::current_exe().map_err(|e| e.to_string())?;
    let args = [what.to_string(), number.to_string(), seed.to_string()];
    let ended = Command::new(program).args(&args).output().map_err(|e| e.to_string())?;
    let counts = std::str::from_utf8(&ended.stdout).ok().and_then(Counts::read);
    let counts = counts.filter(|counts| ended.status.success() && counts.get(DONE) == 1);
    counts.ok_or_else(|| {
        let said = [ended.stdout, ended.stderr].concat();
        // Where nobody reads it, the status tells enough.
        let _ = io::stderr().write_all(&said);
        format!("differential {what} {number} {seed}: {}", ended.status)
    })
}
