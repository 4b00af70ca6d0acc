//! What a list is to be like: its sizes, how long it is, and with what it
//! opens.

use crate::lent::layout_sizes;
use crate::opening;
use oracle::random::Random;
use oracle::sizes::Sizes;
use outside::layout::total;

pub struct Plan {
    pub sizes: Sizes,
    pub opening: Vec<String>,
    /// How many steps, with the opening.
    pub count: u64,
}

/// The sizes and frequencies that lists have.
const PROCESSES: [u64; 5] = [1, 2, 16, 300, 4_096];
const CELLS: [u64; 4] = [1, 2, 256, 65_000];
const FREQUENCIES: [u64; 5] = [1, 3, 1_000, 1_000_000, 4_294_967_295];

/// What steps in states of these sizes are counted as.
pub fn names(sizes: &Sizes) -> [String; 3] {
    let Sizes { processes: p, cells: c, hz, .. } = sizes;
    [format!("P = {p}"), format!("C = {c}"), format!("hz = {hz}")]
}

/// The names of all sizes and frequencies.
pub fn all_names() -> [Vec<String>; 3] {
    let all =
        |what: &str, numbers: &[u64]| numbers.iter().map(|n| format!("{what} = {n}")).collect();
    [all("P", &PROCESSES), all("C", &CELLS), all("hz", &FREQUENCIES)]
}

/// A state of more bytes is large.
pub const LARGE: usize = 300_000;
/// From so many bytes on a state's lists are shorter.
const WIDE: usize = 60_000;

impl Plan {
    /// The plan of list number `index` of those in large states, or of the others.
    pub fn of(index: u64, seed: u64, is_large: bool) -> Plan {
        let mut random = Random::new(seed);
        let sizes = if is_large { large(&mut random, index) } else { small(&mut random) };
        let opening = opening::any(&mut random, &sizes);
        let more = match total(layout_sizes(&sizes)) {
            _ if is_large => 4_000,
            WIDE.. => 700,
            _ => 1_500,
        };
        let count = opening.len() as u64 + more;
        Plan { sizes, opening, count }
    }
}

fn hz(random: &mut Random) -> u64 {
    random.pick(&[1, 3, 1_000, 1_000_000, 1_000_000, 4_294_967_295])
}

fn small(random: &mut Random) -> Sizes {
    let mut few = || random.weighted(&[(20, 1), (30, 2), (45, 16), (5, 4_096)]);
    let (rendez, locks, timers) = (few(), few(), few());
    let processes = random.weighted(&[(8, 1), (22, 2), (60, 16), (10, 300)]);
    let cells = random.weighted(&[(20, 1), (20, 2), (60, 256)]);
    Sizes { processes, rendez, locks, timers, cells, hz: hz(random) }
}

/// The largest of one of the sizes at least.
fn large(random: &mut Random, index: u64) -> Sizes {
    let mut few = || random.pick(&[1, 16, 4_096, 4_096]);
    let (rendez, locks, timers) = (few(), few(), few());
    let (processes, cells) = match index % 8 {
        0 => (4_096, random.pick(&[1, 2, 256])),
        1 => (random.pick(&[2, 16, 300]), 65_000),
        _ => (4_096, 65_000),
    };
    Sizes { processes, rendez, locks, timers, cells, hz: hz(random) }
}
