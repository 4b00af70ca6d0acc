//! Runs r9's own code and the exported `step` and `run` on the same lists, and
//! compares; and hands `step` damaged states.

mod bench;
mod bytes;
mod counts;
mod damaged;
mod expected;
mod family;
mod lent;
mod library;
mod list;
mod many;
mod opening;
mod pages;
mod pieces;
mod plan;
mod self_test;
mod steps;
mod subject;
mod unused;
mod view;

use counts::Counts;
use oracle::parse::digits;
use std::io::{self, Write};
use std::process::exit;
use std::time::Instant;

const USAGE: &str = "usage: differential [lists | damaged] [--steps N] [--seed S], or differential bench | self-test";
const STEPS: u64 = 1_500_000;
const CALLS: u64 = 2_000_000;
const SEED: u64 = 1;
/// From so many steps on every answer and number must come.
const MANY: u64 = 300_000;

fn main() {
    std::panic::set_hook(Box::new(|fault| fail(1, &format!("fault: {fault}"))));
    let args: Vec<String> = std::env::args().skip(1).collect();
    let args: Vec<&str> = args.iter().map(String::as_str).collect();
    match args.as_slice() {
        ["list", index, seed] => part(list::run(number(index), number(seed), false)),
        ["large", index, seed] => part(list::run(number(index), number(seed), true)),
        ["damage", count, seed] => part(damaged::run(number(count), number(seed))),
        ["measure", family, size] => part(bench::measure(number(family), number(size))),
        ["bench"] => bench::run().unwrap_or_else(|why| fail(1, &why)),
        ["self-test"] => self_test(),
        [] => {
            self_test();
            lists(STEPS, SEED);
            damages(CALLS, SEED);
        }
        ["damaged", options @ ..] => {
            let (steps, seed) = amounts(options, CALLS);
            damages(steps, seed);
        }
        ["lists", options @ ..] | options => {
            let (steps, seed) = amounts(options, STEPS);
            lists(steps, seed);
        }
    }
}

/// Say why, and leave with `status`.
fn fail(status: i32, why: &str) -> ! {
    eprintln!("differential: {why}");
    exit(status)
}

fn number(text: &str) -> u64 {
    digits(text).unwrap_or_else(|| fail(2, USAGE))
}

/// The steps and the seed that the arguments name.
fn amounts(options: &[&str], steps: u64) -> (u64, u64) {
    let mut amounts = (steps, SEED);
    for option in options.chunks(2) {
        match option {
            ["--steps", n] => amounts.0 = number(n),
            ["--seed", n] => amounts.1 = number(n),
            _ => fail(2, USAGE),
        }
    }
    amounts
}

/// Print what a part of a run came to.
fn part(outcome: Result<Counts, impl AsRef<[u8]>>) {
    let (text, status) = match &outcome {
        Ok(counts) => (counts.lines().into_bytes(), 0),
        Err(report) => (report.as_ref().to_vec(), 1),
    };
    if let Err(e) = io::stdout().write_all(&text) {
        fail(1, &e.to_string());
    }
    exit(status)
}

fn self_test() {
    match self_test::run() {
        Ok(said) => println!("self-test: {said}"),
        Err(why) => fail(1, &format!("self-test: {why}")),
    }
}

fn lists(steps: u64, seed: u64) {
    let start = Instant::now();
    let counts = many::run(many::lists(steps, seed)).unwrap_or_else(|why| fail(1, &why));
    print!("{}", counts.answers());
    for names in plan::all_names() {
        let steps: Vec<_> =
            names.iter().map(|name| format!("{name}: {}", counts.get(name))).collect();
        println!("steps at {}", steps.join(", "));
    }
    let of = |what: &str| format!("{} {what}", counts.get(what));
    println!(
        "lists: {}, {} ({}): {}, {}, {}, {}, {}; again {}, {}; seed {seed}, {:.1} s: no difference",
        of(counts::LISTS),
        of(counts::STEPS),
        of(counts::LARGE_STEPS),
        of(counts::STEP_CALLS),
        of(counts::RUN_SINGLY),
        of(counts::READ_ONLY_CALLS),
        of(counts::COMPARED),
        of(counts::UNUSED),
        of(counts::RUN_CALLS),
        of(counts::RUN_STEPS),
        start.elapsed().as_secs_f64()
    );
    if steps >= MANY {
        let numbers = expected::REFUSALS.filter(|number| !NEVER.contains(number));
        all_came(&counts, numbers, plan::all_names().concat());
    }
}

fn damages(calls: u64, seed: u64) {
    let start = Instant::now();
    let counts = many::run(many::damages(calls, seed)).unwrap_or_else(|why| fail(1, &why));
    print!("{}", counts.answers());
    let of = |what: &str| format!("{} {what}", counts.get(what));
    println!(
        "damaged: {}, {}, {}; seed {seed}, {:.1} s: all as it must be",
        of(counts::STEP_CALLS),
        of(counts::RUN_CALLS),
        of(counts::RUN_STEPS),
        start.elapsed().as_secs_f64()
    );
    if calls >= MANY {
        all_came(&counts, expected::REFUSALS.filter(|&number| number != HELD), Vec::new());
    }
}

/// No well-formed state meets it, since who runs has no `wait`.
const HELD: u64 = 14;

/// The numbers that no list from a fresh state meets.
const NEVER: [u64; 3] = [1, 14, 16];

/// Every answer, these numbers and these sizes must have come.
fn all_came(counts: &Counts, numbers: impl Iterator<Item = u64>, sizes: Vec<String>) {
    let answers = expected::ANSWERS.iter().map(|answer| answer.0);
    let names = answers.chain(numbers).map(expected::name).chain(sizes);
    let missing: Vec<_> = names.filter(|name| counts.get(name) == 0).collect();
    if !missing.is_empty() {
        fail(1, &format!("these did not come: {}", missing.join(", ")));
    }
}
