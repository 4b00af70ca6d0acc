//! How fast `run` is and how fast r9's own functions are, side by side on the
//! same lists: in a small state; the same list in the largest, where it costs
//! the same; and in the largest with as many as it holds in its queues.

use crate::counts::Counts;
use crate::family::{FAMILIES, Family, Writer};
use crate::library;
use crate::many;
use crate::pieces::{ANSWER, put_step};
use crate::view::View;
use crate::{bytes, lent};
use oracle::dat::ProcArch;
use oracle::driver::Driver;
use oracle::host::{self, Host};
use oracle::parse::{self, Step};
use oracle::perform;
use oracle::sizes::Sizes;
use oracle::straight;
use outside::layout::{number, total};
use std::hint::black_box;
use std::time::Instant;

/// How often a list is run; the shortest time counts.
const TIMES: usize = 12;
/// Answers are from here on, refusals below.
const DONE: u64 = 32;

const SMALL: Sizes =
    Sizes { processes: 16, rendez: 16, locks: 16, timers: 16, cells: 256, hz: 1_000_000 };
const LARGEST: Sizes = Sizes {
    processes: 4_096,
    rendez: 4_096,
    locks: 4_096,
    timers: 4_096,
    cells: 65_000,
    hz: 1_000_000,
};
const SIZES: [Sizes; 2] = [SMALL, LARGEST];

/// What is timed: the Rust step by step as the oracle's driver gives them,
/// with answers; the Rust straight on, without; `run`, without its check; and
/// the check.
const COLUMNS: [&str; 4] = ["driven", "straight", "run", "check"];
/// `run` and its check on a small state's list in the largest state.
const SAME_LIST: [&str; 2] = ["run of the same list", "check of the largest"];

/// A list for both sides.
struct Both {
    steps: Vec<Step>,
    input: Vec<u8>,
    count: usize,
}

impl Both {
    fn of(lines: &[String], sizes: &Sizes) -> Both {
        let (mut steps, mut input) = (Vec::new(), Vec::new());
        for line in lines {
            steps.push(parse::line(line.as_bytes(), sizes).expect("a step").1);
            put_step(&mut input, &bytes::of_line(line.as_bytes()).expect("a step"));
        }
        Both { steps, input, count: lines.len() }
    }
}

/// A state, room for answers, and the shortest times so far.
struct Lent {
    state: Vec<u8>,
    answers: Vec<u8>,
    run: f64,
    check: f64,
}

impl Lent {
    fn fresh(sizes: &Sizes) -> Lent {
        let z = lent::layout_sizes(sizes);
        let mut state = vec![0; total(z)];
        let numbers = [z.p, z.r, z.q, z.k, z.c].map(|n| n as u64);
        assert!(library::make(&mut state, numbers, sizes.hz) == 0, "make refuses");
        Lent { state, answers: Vec::new(), run: f64::MAX, check: f64::MAX }
    }

    fn take(&mut self, list: &Both) {
        self.check = self.check.min(self.checked());
        self.run = self.run.min(self.taken(list));
    }

    /// The seconds of a step, and of the check.
    fn times(&self, steps: usize) -> [f64; 2] {
        [(self.run - self.check) / steps as f64, self.check]
    }

    /// The seconds of a call that only checks the state.
    fn checked(&mut self) -> f64 {
        let start = Instant::now();
        assert!(library::run(&mut self.state, &[], &mut []) == 0, "run takes what is not there");
        start.elapsed().as_secs_f64()
    }

    /// Run the list: seconds, with the check.  No step may be refused.
    fn taken(&mut self, list: &Both) -> f64 {
        self.answers.resize(ANSWER * list.count, 0);
        let start = Instant::now();
        let taken = library::run(&mut self.state, &list.input, &mut self.answers);
        let seconds = start.elapsed().as_secs_f64();
        assert!(taken == list.count as u64, "run takes {taken} of {} steps", list.count);
        let refused = self.answers.chunks(ANSWER).position(|answer| number(answer, 0, 8) < DONE);
        assert!(refused.is_none(), "step {refused:?} is refused");
        seconds
    }
}

/// Give r9 a list as the oracle's driver does, without its guard and notes:
/// seconds.
fn driven(steps: Vec<Step>) -> f64 {
    let start = Instant::now();
    for step in steps {
        match (Host::up().is_null(), step) {
            (true, Step::Sched) => drop(black_box(host::resume_scheduler())),
            (true, step) => drop(black_box(perform::marked(false, step))),
            (false, step) => drop(black_box(host::resume_process(false, step))),
        }
    }
    start.elapsed().as_secs_f64()
}

/// Have r9 take a list with no driver between the steps: seconds.
fn straight(steps: Vec<Step>) -> f64 {
    straight::set(steps);
    let start = Instant::now();
    host::run_script();
    start.elapsed().as_secs_f64()
}

/// Time family number `family` at size number `size`, in this process; the
/// lists of the small size in the largest state too.
pub fn measure(family: u64, size: u64) -> Result<Counts, String> {
    let (family, sizes) = (&FAMILIES[family as usize], &SIZES[size as usize]);
    let is_small = size == 0;
    let mut states = vec![Lent::fresh(sizes)];
    states.extend(is_small.then(|| Lent::fresh(&LARGEST)));
    Driver::new(*sizes);
    straight::make_bare();
    let times = times(family, sizes, &mut states);
    let view = View { bytes: &states[0].state, z: lent::layout_sizes(sizes) };
    view.compare_queues().map_err(|why| format!("{}: {why}\n", family.name))?;
    let mut counts = Counts::default();
    counts.add(many::DONE, 1);
    for (name, seconds) in COLUMNS.iter().chain(&SAME_LIST).zip(times) {
        counts.add(name, (seconds * 1e12) as u64);
    }
    Ok(counts)
}

/// The seconds of a step by the Rust, driven and straight, then in each of the
/// states by `run`, and of its check.
fn times(family: &Family, sizes: &Sizes, states: &mut [Lent]) -> Vec<f64> {
    let opening = Both::of(&(family.opening)(sizes), sizes);
    states.iter_mut().for_each(|lent| _ = lent.taken(&opening));
    driven(opening.steps);
    let mut take = |lines: Vec<String>, rust: fn(Vec<Step>) -> f64| {
        let list = Both::of(&lines, sizes);
        states.iter_mut().for_each(|lent| lent.take(&list));
        assert!(states.iter().all(|lent| lent.answers == states[0].answers), "answers differ");
        rust(list.steps)
    };
    let (mut writer, mut best) = (Writer::new(sizes), [f64::MAX; 2]);
    for _ in 0..TIMES {
        best[0] = best[0].min(take(writer.cycles(family), driven));
        best[1] = best[1].min(take(writer.cycles(family), straight));
    }
    let steps = writer.steps(family);
    let rust = best.map(|seconds| seconds / steps as f64);
    rust.into_iter().chain(states.iter().flat_map(|lent| lent.times(steps))).collect()
}

/// Print the table: each measured in a process of its own.
pub fn run() -> Result<(), String> {
    head();
    for (at, family) in (0..).zip(&FAMILIES) {
        let small = many::child(("measure", at, 0))?;
        let large = many::child(("measure", at, 1))?;
        let of = |counts: &Counts, name: &str| counts.get(name) as f64;
        let cost = of(&small, COLUMNS[2]);
        let [same, check] = SAME_LIST.map(|name| of(&small, name));
        let same = format!("{:>8.2} {:>8.0} {:>6.2}", 1e6 / same, check / 1e6, same / cost);
        let full = format!("{} {:>6.2}", rates(&large), of(&large, COLUMNS[2]) / cost);
        println!("{:<29} {} | {same} | {full}", family.name, rates(&small));
    }
    Ok(())
}

/// Millions of steps a second, how many times as fast `run` is, and the check.
fn rates(counts: &Counts) -> String {
    let [driven, straight, run, check] = COLUMNS.map(|name| counts.get(name) as f64);
    let rates = [driven, straight, run].map(|picoseconds| format!("{:>8.2}", 1e6 / picoseconds));
    let (to_driven, to_straight) = (driven / run, straight / run);
    format!("{} {to_driven:>7.2} {to_straight:>7.2} {:>8.0}", rates.join(" "), check / 1e6)
}

fn head() {
    let [driven, straight, run, _] = COLUMNS;
    let check = "check µs";
    let columns = format!("{driven:>8} {straight:>8} {run:>8} {:>7} {:>7}", "run : d", "run : s");
    let columns = format!("{columns} {check:>8}");
    let same = format!("{run:>8} {check:>8} {:>6}", "cost");
    let (small, large) = ("P = 16, C = 256", "P = 4,096, C = 65,000");
    println!("{:<29} {small:^51} | {large:^24} | {large}, all in queues", "");
    println!("{:<29} {columns} | {same} | {columns}   cost", "millions of steps a second");
    println!("{:<29} {:51} | {:^24} |", "", "", "the same list");
}
