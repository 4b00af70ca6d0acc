//! The oracle: r9's own process code driven by the steps of docs/MACHINE.md.

use oracle::driver::Driver;
use oracle::sizes::Sizes;
use oracle::{coverage, generate, listing, parse};
use std::io::{self, Read};
use std::process::exit;

const USAGE: &str = "usage: oracle [-s P,R,Q,K,C,HZ] < LIST, \
    or oracle generate [-s P,R,Q,K,C,HZ] SEED COUNT, or oracle coverage LIST...";

fn main() {
    std::panic::set_hook(Box::new(|fault| {
        fail(1, &format!("fault: {}", fault.to_string().replace('\n', " ")))
    }));
    let args: Vec<String> = std::env::args().skip(1).collect();
    let args: Vec<&str> = args.iter().map(String::as_str).collect();
    match args.as_slice() {
        [] => run(Sizes::DEFAULT),
        ["-s", sizes] => run(read_sizes(sizes)),
        ["generate", seed, count] => generate(Sizes::DEFAULT, seed, count),
        ["generate", "-s", sizes, seed, count] => generate(read_sizes(sizes), seed, count),
        ["coverage", files @ ..] if !files.is_empty() => coverage(files),
        _ => fail(2, USAGE),
    }
}

/// Say why in one line, and leave with `status`.
fn fail(status: i32, why: &str) -> ! {
    eprintln!("oracle: {why}");
    exit(status)
}

fn read_sizes(text: &str) -> Sizes {
    Sizes::read(text).unwrap_or_else(|| fail(2, &format!("not P,R,Q,K,C,HZ in range: {text}")))
}

/// Write the listing of the list on standard input.
fn run(sizes: Sizes) {
    let mut input = Vec::new();
    if let Err(e) = io::stdin().read_to_end(&mut input) {
        fail(1, &format!("cannot read the list: {e}"));
    }
    let mut driver = Driver::new(sizes);
    if let Err(why) = listing::write(&mut driver, &input, &mut io::stdout().lock()) {
        fail(3, &why);
    }
}

/// Write a list of `count` steps from `seed`.
fn generate(sizes: Sizes, seed: &str, count: &str) {
    let (Some(seed), Some(count)) = (parse::digits(seed), parse::digits(count)) else {
        fail(2, USAGE)
    };
    if let Err(why) = generate::list(sizes, seed, count, &mut io::stdout().lock()) {
        fail(3, &why);
    }
}

/// Count steps and answers over lists, and fail where one is missing.
fn coverage(files: &[&str]) {
    let (counts, missing) = coverage::report(files).unwrap_or_else(|why| fail(1, &why));
    print!("{counts}");
    if !missing.is_empty() {
        fail(1, &format!("missing: {}", missing.join(", ")));
    }
}
