//! Compares the message that `exit_message` writes with the one that r9's own
//! `tell_parent` makes.

mod case;
mod lent;
mod library;
mod rust;

use case::{Case, MESSAGE_MAX};
use lent::{Lent, REFUSED};
use oracle::parse::digits;
use oracle::random::Random;
use rust::Parent;
use std::fmt;
use std::process::exit;
use std::time::Instant;

const USAGE: &str = "usage: messages [SEED [COUNT]]";
const SEED: u64 = 1;
const COUNT: u64 = 200_000;
/// From this many messages on there must be some of every kind.
const MANY: u64 = 10_000;

fn main() {
    std::panic::set_hook(Box::new(|fault| fail(1, &format!("fault: {fault}"))));
    let args: Vec<String> = std::env::args().skip(1).collect();
    let numbers: Option<Vec<u64>> = args.iter().map(|arg| digits(arg)).collect();
    let (seed, count) = match numbers.as_deref() {
        Some([]) => (SEED, COUNT),
        Some(&[seed]) => (seed, COUNT),
        Some(&[seed, count]) if count > 0 => (seed, count),
        _ => fail(2, USAGE),
    };
    let start = Instant::now();
    let kinds = compare(seed, count).unwrap_or_else(|why| fail(1, &why));
    let seconds = start.elapsed().as_secs_f64();
    println!(
        "messages: {count} compared, all agree: {kinds}; as many refused; seed {seed}, {seconds:.1} s"
    );
}

/// Say why, and leave with `status`.
fn fail(status: i32, why: &str) -> ! {
    eprintln!("messages: {why}");
    exit(status)
}

/// Compare `count` messages, and make a call that is refused beside each.
fn compare(seed: u64, count: u64) -> Result<Kinds, String> {
    let (mut random, parent) = (Random::new(seed), Parent::new());
    let mut kinds = Kinds::default();
    for _ in 0..count {
        let case = Case::any(&mut random);
        let message = parent.message(&case.name, case.pid, &case.status);
        Lent::any(&mut random, &case).call(message.len() as u64, &message)?;
        Lent::refused(&mut random, &case).call(REFUSED, &[])?;
        kinds.note(&case, message.len());
    }
    if count >= MANY && kinds.lacks_one() {
        return Err(format!("{count} compared, but not of every kind: {kinds}"));
    }
    Ok(kinds)
}

/// How many messages of each kind there were.
#[derive(Default)]
struct Kinds {
    empty: u64,
    whole: u64,
    /// Cut at 127, and 1, 2, 3 and more bytes before.
    cut: [u64; 5],
    /// The most bytes before.
    furthest: usize,
}

impl Kinds {
    fn note(&mut self, case: &Case, length: usize) {
        match length {
            0 => self.empty += 1,
            _ if length == case.whole() => self.whole += 1,
            _ => self.note_cut(MESSAGE_MAX - length),
        }
    }

    fn note_cut(&mut self, before: usize) {
        self.cut[before.min(4)] += 1;
        self.furthest = self.furthest.max(before);
    }

    fn lacks_one(&self) -> bool {
        self.empty == 0 || self.whole == 0 || self.cut.contains(&0)
    }
}

impl fmt::Display for Kinds {
    fn fmt(&self, f: &mut fmt::Formatter) -> fmt::Result {
        let (empty, whole, [at, one, two, three, more]) = (self.empty, self.whole, self.cut);
        write!(f, "{empty} empty, {whole} whole, {at} cut at 127, and before it ")?;
        write!(f, "{one} by 1, {two} by 2, {three} by 3, {more} by 4 to {}", self.furthest)
    }
}
