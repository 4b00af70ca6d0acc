//! Tries `size`, `make` and `check` from outside: their static libraries
//! against an own reading of docs/STATE.md and docs/MACHINE.md.

use outside::check_test::{self, Amount};
use outside::random::Random;
use outside::trial::Trial;
use outside::{bench, layout, library, make_test, reader};
use std::process::ExitCode;
use std::time::Instant;

const USAGE: &str = "usage: outside [long] [SEED], or outside bench";

fn main() -> ExitCode {
    let args: Vec<String> = std::env::args().skip(1).collect();
    let args: Vec<&str> = args.iter().map(String::as_str).collect();
    match args.as_slice() {
        [] => test(&check_test::SHORT, 1),
        ["bench"] => time(),
        ["long"] => test(&check_test::LONG, 1),
        ["long", seed] => seeded(&check_test::LONG, seed),
        [seed] => seeded(&check_test::SHORT, seed),
        _ => usage(),
    }
}

fn usage() -> ExitCode {
    eprintln!("{USAGE}");
    ExitCode::from(2)
}

fn seeded(amount: &Amount, seed: &str) -> ExitCode {
    seed.parse().map_or_else(|_| usage(), |seed| test(amount, seed))
}

fn time() -> ExitCode {
    if bench::run().is_none() {
        println!("check is not linked: nothing to time");
    }
    ExitCode::SUCCESS
}

fn test(amount: &Amount, seed: u64) -> ExitCode {
    let start = Instant::now();
    let mut t = Trial::default();
    let mut rng = Random::new(seed);
    tables(&mut t, &mut rng);
    let (sizes, makes) = make_test::run(&mut t, &mut rng);
    check_test::run(&mut t, amount, &mut rng);
    generator_is_sound(&mut t);
    let is_right = t.report();
    println!("\nsize: {sizes} calls; make: {makes} calls; states: {}", t.states());
    if !library::HAS_CHECK {
        println!("check is not linked: the states were read by the reader alone");
    }
    println!(
        "seed {seed}, {:.1} s: {}",
        start.elapsed().as_secs_f64(),
        if is_right { "passed" } else { "FAILED" }
    );
    if is_right { ExitCode::SUCCESS } else { ExitCode::from(1) }
}

/// The tables of docs/STATE.md agree with each other.
fn tables(t: &mut Trial, rng: &mut Random) {
    for _ in 0..1_000 {
        let mut n = || rng.between(1, 4_096);
        let z = layout::Sizes { p: n(), r: n(), q: n(), k: n(), c: n() };
        t.must(layout::tables_agree(z), || format!("the tables do not agree at {z:?}"));
    }
}

/// The damages are worth trying: most do break a state, and every rule that can
/// be broken alone is.
fn generator_is_sound(t: &mut Trial) {
    for kind in
        ["one field: header", "one field: lock", "one field: record word", "one field: cell word"]
    {
        let (not, all) = t.not_formed(kind);
        t.must(10 * not > 8 * all, || format!("{kind}: only {not} of {all} are not well formed"));
    }
    let (not, all) = t.not_formed("left over");
    t.must(all > 0 && not == all, || format!("left over: {not} of {all} are not well formed"));
    let (not, all) = t.not_formed("free: call");
    t.must(all > 0 && not == 0, || format!("in free records: {not} of {all} are not well formed"));
    for i in 0..reader::COUNT {
        let alone = t.times_alone(i);
        t.must(alone > 0 || reader::is_implied(i), || {
            format!("{} is never broken alone", reader::rule_name(i))
        });
    }
}
