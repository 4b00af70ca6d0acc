//! Damages to a state: lists of fields with new values.

use crate::layout::*;
use crate::machine::Machine;
use crate::random::Random;

/// A field's new value.
#[derive(Clone, Copy, PartialEq, Eq)]
pub struct Edit {
    pub at: usize,
    pub width: usize,
    pub value: u64,
}

#[derive(Clone)]
pub struct Damage {
    pub kind: &'static str,
    pub edits: Vec<Edit>,
}

/// A well-formed state and the machine that it holds.
pub struct Base<'a> {
    pub bytes: &'a [u8],
    pub machine: &'a Machine,
    pub z: Sizes,
}

impl Base<'_> {
    pub fn get(&self, f: Field, i: usize) -> u64 {
        f.get(self.bytes, self.z, i)
    }

    pub fn edit(&self, f: Field, i: usize, value: u64) -> Edit {
        Edit { at: f.at(self.z, i), width: f.width, value: value & f.ones() }
    }

    /// A field of one record and the same or another of another record, exchanged.
    pub fn exchange(&self, (f, i): (Field, usize), (g, j): (Field, usize)) -> Vec<Edit> {
        vec![self.edit(f, i, self.get(g, j)), self.edit(g, j, self.get(f, i))]
    }

    /// One number up by one and one down by one.
    pub fn up_down(&self, f: Field, (i, j): (usize, usize)) -> Vec<Edit> {
        let (up, down) = (self.get(f, i).wrapping_add(1), self.get(f, j).wrapping_sub(1));
        vec![self.edit(f, i, up), self.edit(f, j, down)]
    }

    pub fn records(&self, f: Field) -> usize {
        f.region.records(self.z)
    }

    pub fn any(&self, f: Field, rng: &mut Random) -> (Field, usize) {
        (f, rng.below(self.records(f)))
    }

    pub fn used_cells(&self) -> Vec<usize> {
        (0..self.z.c).filter(|&c| self.machine.used_cells[c]).collect()
    }

    pub fn living_such(&self, is: impl Fn(usize) -> bool) -> Vec<usize> {
        self.machine.living().into_iter().filter(|&i| is(i)).collect()
    }

    /// The living whose parent lives too.
    pub fn children(&self) -> Vec<usize> {
        let m = self.machine;
        self.living_such(|i| m.process(i).parent != 0 && m.record_of(m.process(i).parent).is_some())
    }

    pub fn queued(&self) -> Vec<usize> {
        self.machine.timers.iter().map(|&(t, _)| t).collect()
    }

    pub fn not_queued(&self) -> Vec<usize> {
        let queued = self.queued();
        (0..self.z.k + self.z.p).filter(|t| !queued.contains(t)).collect()
    }

    pub fn locks_such(&self, waiters: usize) -> Vec<usize> {
        (0..self.z.q).filter(|&q| self.machine.locks[q].waiters.len() >= waiters).collect()
    }
}

fn one_field_kind(region: Region) -> &'static str {
    match region {
        Region::Header => "one field: header",
        Region::Process => "one field: process record",
        Region::Name => "one field: name",
        Region::Rendez => "one field: Rendez",
        Region::Lock => "one field: lock",
        Region::Timer => "one field: timer",
        Region::Cell => "one field: cell",
        Region::Message => "one field: message",
        Region::Condition => "one field: condition",
        Region::RecordWord => "one field: record word",
        Region::CellWord => "one field: cell word",
        Region::FullWord => "one field: full word",
        Region::TimerLink => "one field: timer link",
    }
}

/// Values to try in a field: neighbours, ends of the range and beyond, random
/// ones, the record itself, one bit turned.
fn values(b: &Base, f: Field, i: usize, rng: &mut Random) -> Vec<u64> {
    let (old, highest) = (b.get(f, i), f.highest(b.z));
    let mut values =
        vec![old.wrapping_add(1), old.wrapping_sub(1), 0, 1, highest, f.ones(), f.ones() / 2 + 1];
    values.push(highest.wrapping_add(1));
    values.push(rng.bits());
    values.push(rng.up_to(highest));
    values.push(old ^ 1 << rng.below(8 * f.width));
    if f.is_link() {
        values.push(i as u64 + 1);
        values.push(i as u64);
        values.push(i as u64 + 2);
    }
    values.iter_mut().for_each(|value| *value &= f.ones());
    values.sort_unstable();
    values.dedup();
    values.retain(|&value| value != old);
    values
}

/// Every field of every region, in at most `most` records of each, the first
/// and the last among them.
pub fn one_field(b: &Base, most: usize, rng: &mut Random) -> Vec<Damage> {
    let mut damages = Vec::new();
    for &f in FIELDS {
        for i in sample(b.records(f), most, rng) {
            for value in values(b, f, i, rng) {
                damages.push(Damage {
                    kind: one_field_kind(f.region),
                    edits: vec![b.edit(f, i, value)],
                });
            }
        }
    }
    damages
}

fn sample(n: usize, most: usize, rng: &mut Random) -> Vec<usize> {
    if n <= most {
        return (0..n).collect();
    }
    let mut chosen = vec![0, n - 1];
    chosen.extend((0..most.saturating_sub(2)).map(|_| rng.below(n)));
    chosen.sort_unstable();
    chosen.dedup();
    chosen
}

/// One value of one field.  The regions come up about equally often.
pub fn any_field(b: &Base, rng: &mut Random) -> Damage {
    loop {
        let region = rng.of(&REGIONS);
        let fields: Vec<Field> = FIELDS.iter().copied().filter(|f| f.region == region).collect();
        let (f, i) = b.any(rng.of(&fields), rng);
        let values = values(b, f, i, rng);
        if let Some(value) = rng.any(&values) {
            return Damage { kind: one_field_kind(region), edits: vec![b.edit(f, i, value)] };
        }
    }
}

/// Two values of two fields.
pub fn two_fields(b: &Base, rng: &mut Random) -> Damage {
    let mut damage = any_field(b, rng);
    damage.edits.extend(any_field(b, rng).edits);
    damage.kind = "two fields";
    damage
}

/// Some random bytes.
pub fn some_bytes(b: &Base, rng: &mut Random) -> Damage {
    let edits = (0..rng.between(1, 6)).map(|_| {
        let region = rng.of(&REGIONS);
        let at = region.begins(b.z) + rng.below(region.ends(b.z) - region.begins(b.z));
        let value = if rng.percent(50) {
            u64::from(b.bytes[at]) ^ 1 << rng.below(8)
        } else {
            rng.bits() & 255
        };
        Edit { at, width: 1, value }
    });
    Damage { kind: "some bytes", edits: edits.collect() }
}

/// The bytes that mean nothing in a living record, or are in no field.
pub fn spare_bytes(b: &Base, rng: &mut Random) -> Damage {
    let mut edits = Vec::new();
    for (region, from, to) in [
        (Region::Process, 42, 48),
        (Region::Timer, 18, 20),
        (Region::Timer, 21, 24),
        (Region::Cell, 13, 16),
    ] {
        let i = rng.below(region.records(b.z));
        for offset in from..to {
            let at = region.begins(b.z) + i * region.bytes_each() + offset;
            edits.push(Edit { at, width: 1, value: rng.bits() & 255 });
        }
    }
    Damage { kind: "spare bytes", edits }
}

/// What changes between two states of the same sizes, names and messages left out.
pub fn changes(z: Sizes, from: &[u8], to: &[u8]) -> Vec<Edit> {
    let mut edits = Vec::new();
    for f in FIELDS.iter().filter(|f| !matches!(f.region, Region::Name | Region::Message)) {
        for i in 0..f.region.records(z) {
            let value = f.get(to, z, i);
            if f.get(from, z, i) != value {
                edits.push(Edit { at: f.at(z, i), width: f.width, value });
            }
        }
    }
    edits
}

/// A change carried out whole, without one of its fields, with one alone, or half.
pub fn torn(all: &[Edit], times: usize, rng: &mut Random) -> Vec<Damage> {
    let mut damages = vec![Damage { kind: "torn: whole", edits: all.to_vec() }];
    for n in sample(all.len(), times, rng) {
        let mut without = all.to_vec();
        without.remove(n);
        damages.push(Damage { kind: "torn: one field left out", edits: without });
        damages.push(Damage { kind: "torn: one field alone", edits: vec![all[n]] });
    }
    for _ in 0..times / 4 {
        let half = all.iter().copied().filter(|_| rng.percent(50)).collect();
        damages.push(Damage { kind: "torn: half", edits: half });
    }
    damages
}
