//! Lines with which a list opens, so that much is in use from then on.

use oracle::random::Random;
use oracle::sizes::Sizes;

/// Above so many processes a list always has an opening.
const MANY: usize = 100;
/// A wait queue holds so many exits.
const MOST_EXITS: usize = 128;
/// More firings than one 'probably stuck' line stands for.
const STUCK: u64 = 25_000;

pub fn any(random: &mut Random, sizes: &Sizes) -> Vec<String> {
    if sizes.processes < MANY && random.chance(60) {
        return Vec::new();
    }
    let mut lines = one(random, sizes);
    if random.chance(30) {
        lines.extend(one(random, sizes));
    }
    lines
}

fn one(random: &mut Random, sizes: &Sizes) -> Vec<String> {
    let all = sizes.processes + 1;
    match random.below(8) {
        0 => repeat(&["start 0"], all),
        1 => sleepers(random, sizes, false),
        2 => sleepers(random, sizes, true),
        3 => kernel_timers(random, sizes),
        4 => waiters(all),
        5 => family(random, all.min(200)),
        6 => stuck(sizes),
        _ => full_wait_queues(random, sizes),
    }
}

/// These lines, so many times.
pub fn repeat(lines: &[&str], times: usize) -> Vec<String> {
    lines.repeat(times).into_iter().map(String::from).collect()
}

/// All that can sleep on a Rendez of their own.
fn sleepers(random: &mut Random, sizes: &Sizes, is_timed: bool) -> Vec<String> {
    let mut lines = repeat(&["start 0"], sizes.processes);
    for r in 0..sizes.processes.min(sizes.rendez) {
        lines.push("sched".to_string());
        let c = random.below(256);
        lines.push(match is_timed {
            false => format!("sleep {r} {c}"),
            true => format!("tsleep {r} {c} {} {} 0", random.below(3), 1 + random.below(999_999)),
        });
    }
    lines
}

/// All kernel timers are queued.
fn kernel_timers(random: &mut Random, sizes: &Sizes) -> Vec<String> {
    let mut line = |t: usize| {
        let (kind, r) = (u64::from(random.chance(5)), random.below(sizes.rendez as u64));
        let (s, n) = (1 + random.below(1_000), random.pick(&[0, 0, 1, 500_000_000]));
        format!("tadd {t} {kind} {s} {n} {r} 0")
    };
    (1..sizes.timers).map(&mut line).collect()
}

/// All wait for one lock but one, which runs.
pub fn waiters(all: usize) -> Vec<String> {
    let mut lines = repeat(&["start 0"], all);
    lines.extend(repeat(&["sched", "qlock 0", "yield"], 1));
    lines.extend(repeat(&["sched", "qlock 0"], all.saturating_sub(1)));
    lines.push("sched".to_string());
    lines
}

/// Children that all exit before the first wait.
fn family(random: &mut Random, children: usize) -> Vec<String> {
    let exit = random.pick(&["exit", "exit hold 3", "exit \u{e9}"]);
    let mut lines = repeat(&["start 0", "sched", "name stow"], 1);
    lines.extend(repeat(&["rfork 16 0"], children));
    lines.push("yield".to_string());
    lines.extend(repeat(&["sched", exit], children));
    lines.push("sched".to_string());
    lines.extend(repeat(&["wait"], children + 1));
    lines
}

/// A timer of the shortest period that has long been due.
fn stuck(sizes: &Sizes) -> Vec<String> {
    let period = sizes.hz.div_ceil(10_000);
    let now = STUCK * period;
    vec!["tadd 1 1 0 100000 0 0".to_string(), format!("intr {now}"), "tdel 1".to_string()]
}

/// One parent after another, the others waiting for a lock, has so many exits
/// as a wait queue holds, until there is no cell.
fn full_wait_queues(random: &mut Random, sizes: &Sizes) -> Vec<String> {
    let wanted = sizes.cells.div_ceil(MOST_EXITS) + 1;
    let most = random.pick(&[3, 40]);
    let parents = wanted.min(most).min(sizes.processes.saturating_sub(1));
    let mut lines = waiters(parents);
    let child = ["rfork 16 0", "yield", "sched", "exit full", "sched"];
    for _ in 0..parents {
        lines.extend(repeat(&child, MOST_EXITS + 1));
        lines.extend(repeat(&["qunlock 0", "qlock 0", "sched"], 1));
    }
    lines
}
