//! `check` against the reader.

use crate::damage::{self, Base, Damage};
use crate::encode::{Rest, decode, encode};
use crate::layout::*;
use crate::machine::Machine;
use crate::pairs;
use crate::random::Random;
use crate::reader::well_formed;
use crate::simulate::{self, Wish};
use crate::slips::SLIPS;
use crate::trial::Trial;

/// How much is tried.
pub struct Amount {
    pub small: usize,
    pub middle: usize,
    pub wide: usize,
    pub large: usize,
    /// Damages to each large state.
    pub large_damages: usize,
}

pub const SHORT: Amount = Amount { small: 40, middle: 4, wide: 1, large: 1, large_damages: 12 };
pub const LONG: Amount =
    Amount { small: 1_600, middle: 160, wide: 12, large: 4, large_damages: 150 };

/// How often each kind of damage is done to a state.
struct Times {
    /// Records of each region in which every field is damaged.
    fields: usize,
    pairs: usize,
    random: usize,
    slips: usize,
    /// How often more happens and is written in part.
    torn: usize,
    walk: usize,
}

const ALL: Times = Times { fields: 12, pairs: 12, random: 60, slips: 3, torn: 12, walk: 150 };
const SOME: Times = Times { fields: 1, pairs: 6, random: 40, slips: 2, torn: 8, walk: 60 };
const FEW: Times = Times { fields: 0, pairs: 1, random: 10, slips: 1, torn: 2, walk: 10 };

/// A rich state, and the buffers that hold it.
struct Subject {
    machine: Machine,
    rest: Rest,
    base: Vec<u8>,
    lent: Vec<u8>,
    twin: Vec<u8>,
}

impl Subject {
    /// Makes a change in the state and in its copies.
    fn keep(&mut self, edit: &damage::Edit) {
        for bytes in [&mut self.base, &mut self.lent, &mut self.twin] {
            put(bytes, edit.at, edit.width, edit.value);
        }
    }

    /// Writes a machine; some states have bytes after them.
    fn new(machine: Machine, rng: &mut Random) -> Subject {
        let rest = if rng.percent(15) { Rest::Zero } else { Rest::Of(rng.bits()) };
        let mut base = encode(&machine, rest);
        if rng.percent(40) {
            base.extend((0..rng.between(1, 70)).map(|_| rng.bits() as u8));
        }
        let (lent, twin) = (base.clone(), base.clone());
        Subject { machine, rest, base, lent, twin }
    }

    fn base(&self) -> Base<'_> {
        Base { bytes: &self.base, machine: &self.machine, z: self.machine.z }
    }

    fn plain(&mut self, t: &mut Trial, kind: &'static str) -> bool {
        t.plain(kind, &mut self.lent, &self.twin)
    }

    fn damaged(&mut self, t: &mut Trial, damage: &Damage) -> bool {
        t.damaged(damage, &self.base, &mut self.lent, &mut self.twin)
    }
}

pub fn run(t: &mut Trial, amount: &Amount, rng: &mut Random) {
    strange_bytes(t, rng);
    sizes_at_bounds(t, rng);
    for n in 0..amount.small {
        let wish = simulate::small(rng);
        let times = if n % 8 == 0 { &ALL } else { &SOME };
        state(t, wish, times, "rich: small", rng);
    }
    for _ in 0..amount.middle {
        let wish = simulate::middle(rng);
        state(t, wish, &SOME, "rich: middle", rng);
    }
    for _ in 0..amount.wide {
        let wish = simulate::wide(rng);
        state(t, wish, &FEW, "rich: wide", rng);
    }
    for n in 0..amount.large {
        large(t, simulate::large(n % 2 == 0), amount.large_damages, rng);
    }
}

/// Everything that is tried on one rich state.
fn state(t: &mut Trial, wish: Wish, times: &Times, kind: &'static str, rng: &mut Random) {
    let mut s = rich(t, wish, kind, rng);
    lengths(t, &mut s);
    let mut damages = damage::one_field(&s.base(), times.fields, rng);
    if times.fields == 0 {
        damages.clear();
    }
    damages.extend(pairs::links_and_pairs(&s.base(), times.pairs, rng));
    for _ in 0..times.random {
        damages.push(damage::any_field(&s.base(), rng));
        damages.push(damage::two_fields(&s.base(), rng));
        damages.push(damage::some_bytes(&s.base(), rng));
    }
    damages.push(damage::spare_bytes(&s.base(), rng));
    damages.extend(torn(&s, times, rng));
    for damage in &damages {
        s.damaged(t, damage);
    }
    slips(t, &s.machine, times.slips, rng);
    walk(t, &mut s, times.walk, rng);
}

/// A rich state, tried as it is, at an odd place too, and read back.
fn rich(t: &mut Trial, wish: Wish, kind: &'static str, rng: &mut Random) -> Subject {
    let mut s = Subject::new(simulate::rich(wish, rng), rng);
    s.plain(t, kind);
    t.must(well_formed(&s.base), || {
        format!("{kind}: a built state is not well formed: {:?}", s.machine.z)
    });
    let back = decode(&s.base).is_some_and(|back| back == s.machine);
    t.must(back, || format!("{kind}: a built state reads back as another: {:?}", s.machine.z));
    t.richness.add(&s.machine);
    let from = rng.between(1, 7);
    let mut moved = vec![0; from];
    moved.extend_from_slice(&s.base);
    t.plain("rich: moved", &mut moved[from..], &s.base);
    s
}

/// Buffers cut off about the start and the end of each region.
fn lengths(t: &mut Trial, s: &mut Subject) {
    let mut ends: Vec<usize> = (0..=82).collect();
    for region in REGIONS {
        let end = region.ends(s.machine.z);
        ends.extend(end - 2..=end + 2);
    }
    ends.sort_unstable();
    ends.dedup();
    for length in ends.into_iter().filter(|&length| length <= s.base.len()) {
        t.plain("cut off", &mut s.lent[..length], &s.twin[..length]);
    }
}

/// Something more happens to the machine, and only some of it gets written.
fn torn(s: &Subject, times: &Times, rng: &mut Random) -> Vec<Damage> {
    let mut damages = Vec::new();
    for _ in 0..times.torn {
        let mut after = s.machine.clone();
        for _ in 0..rng.between(1, 4) {
            simulate::turn(&mut after, rng);
        }
        let changes = damage::changes(s.machine.z, &s.base, &encode(&after, s.rest));
        if !changes.is_empty() {
            damages.extend(damage::torn(&changes, times.pairs, rng));
        }
    }
    damages
}

/// Machines with one thing wrong.
fn slips(t: &mut Trial, machine: &Machine, times: usize, rng: &mut Random) {
    for &(kind, slip) in SLIPS {
        for _ in 0..times {
            let mut m = machine.clone();
            if slip(&mut m, rng).is_some() {
                let formed = Subject::new(m, rng).plain(t, kind);
                t.must(formed || !kind.starts_with("no slip"), || {
                    format!("{kind}: not well formed")
                });
                t.must(!formed || !kind.starts_with("slip"), || format!("{kind}: well formed"));
            }
        }
    }
}

/// One change after another; those that leave the state well formed stay.
fn walk(t: &mut Trial, s: &mut Subject, steps: usize, rng: &mut Random) {
    for _ in 0..steps {
        let mut damage = damage::any_field(&s.base(), rng);
        damage.kind = "walk";
        if s.damaged(t, &damage) {
            damage.edits.iter().for_each(|edit| s.keep(edit));
            match decode(&s.base) {
                Some(machine) => s.machine = machine,
                None => t.fault("walk: a well-formed state cannot be read".to_string()),
            }
        }
    }
}

/// The largest states.
fn large(t: &mut Trial, wish: Wish, damages: usize, rng: &mut Random) {
    let mut s = rich(t, wish, "rich: large", rng);
    let chosen = pairs::links_and_pairs(&s.base(), 1, rng);
    for _ in 0..damages {
        let damage = match rng.below(4) {
            0 => damage::any_field(&s.base(), rng),
            1 => damage::some_bytes(&s.base(), rng),
            2 => damage::spare_bytes(&s.base(), rng),
            _ => chosen[rng.below(chosen.len())].clone(),
        };
        s.damaged(t, &damage);
    }
}

/// Bytes that are no state, or nothing but a header.
fn strange_bytes(t: &mut Trial, rng: &mut Random) {
    let fresh =
        encode(&Machine::fresh(Sizes { p: 2, r: 2, q: 2, k: 2, c: 2 }, 1_000_000), Rest::Zero);
    for n in 0..400 {
        let length = if n < 100 { n } else { rng.between(0, fresh.len() + 200) };
        let mut bytes: Vec<u8> = match n % 4 {
            0 => vec![0; length],
            1 => vec![255; length],
            _ => (0..length).map(|_| rng.bits() as u8).collect(),
        };
        if n % 4 == 3 && n >= 100 {
            let known = rng.between(0, 80).min(length);
            bytes[..known].copy_from_slice(&fresh[..known]);
        }
        let twin = bytes.clone();
        t.plain("random bytes", &mut bytes, &twin);
    }
}

/// Fresh states with a size at its bound, and one beyond, in a buffer that is long enough.
fn sizes_at_bounds(t: &mut Trial, rng: &mut Random) {
    for at in 0..5 {
        let most = if at == 4 { 65_000 } else { 4_096 };
        for n in [0, 1, most, most + 1] {
            let mut sizes = [3, 3, 3, 3, 3];
            sizes[at] = n;
            let [p, r, q, k, c] = sizes;
            let z = Sizes { p, r, q, k, c };
            let mut s = Subject::new(Machine::fresh(z, 1_000), rng);
            // Without kernel timers too, what stands first has timer 0's period.
            for bytes in [&mut s.base, &mut s.lent, &mut s.twin] {
                PERIOD.set(bytes, z, 0, counts(TICK, 1_000));
            }
            let formed = s.plain(t, "size at its bound");
            t.must(formed == (1..=most).contains(&n), || {
                format!("sizes {sizes:?}: well formed is {formed}")
            });
        }
    }
}
