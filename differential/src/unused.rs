//! What of a state's bytes the machine has no use for, read by docs/STATE.md.
//! A step leaves as it was whatever the machine has no use for after it.

use oracle::random::Random;
use outside::layout::{Region::*, *};
use std::ops::Range;

/// Bytes of a name, and the most of a message.
const NAME: usize = 28;
const MESSAGE: usize = 127;
/// Of `state_of` and `resume_kind`.
const READY: u64 = 2;
const ASLEEP: u64 = 3;
const SLEEP: u64 = 1;
const TSLEEP: u64 = 2;
const QLOCK: u64 = 3;
/// So many bytes are compared at once.
const BLOCK: usize = 256;

#[derive(Clone, Copy)]
struct State<'a> {
    bytes: &'a [u8],
    z: Sizes,
}

impl State<'_> {
    #[inline(always)]
    fn get(self, field: Field, i: usize) -> u64 {
        field.get(self.bytes, self.z, i)
    }

    /// Whether a field means something, or must hold a number that the rules
    /// name.
    fn is_used(self, field: Field, i: usize) -> bool {
        match field {
            PID | STATE_OF | NEXT | OLDER | YOUNGER | EXITS | NEXITS => true,
            IS_QUEUED | TIMER_NEXT | OWNER | CELL_NEXT => true,
            PARENT_AT => self.is_living(i) && !self.is_orphan(i),
            NAME_BYTE => self.is_living(i / NAME),
            DEADLINE => self.get(IS_QUEUED, i) == 1,
            PERIOD => i < self.z.k,
            TIMER_RENDEZ => 0 < i && i < self.z.k,
            MESSAGE_BYTE => {
                let (cell, at) = (i / MESSAGE, i % MESSAGE);
                self.is_taken(cell) && (at as u64) < self.get(MESSAGE_LENGTH, cell)
            }
            _ => match field.region {
                Process => self.is_living(i),
                Cell => self.is_taken(i),
                _ => true,
            },
        }
    }

    fn is_living(self, record: usize) -> bool {
        self.get(PID, record) != 0
    }

    fn is_taken(self, cell: usize) -> bool {
        self.get(OWNER, cell) != 0
    }

    /// Whether it has a parent that lives no more.
    fn is_orphan(self, record: usize) -> bool {
        let parent = self.get(PARENT, record);
        parent != 0 && (0..self.z.p).all(|i| self.get(PID, i) != parent)
    }

    /// Rules 7, 11 and 12: 0 is in what a record's place, call and parent have
    /// no use for, and in what links a free one.
    fn has_nothing_left_over(self, record: usize) -> Result<(), String> {
        let of = |field| self.get(field, record);
        let (state, call) = (of(STATE_OF), of(RESUME_KIND));
        let is_living = self.is_living(record);
        let must_be_zero = [
            (NEXT, state != READY && (state, call) != (ASLEEP, QLOCK)),
            (RESUME_OBJECT, is_living && ![SLEEP, TSLEEP, QLOCK].contains(&call)),
            (RESUME_CONDITION, is_living && ![SLEEP, TSLEEP].contains(&call)),
            (PARENT_AT, is_living && of(PARENT) == 0),
            (OLDER, !is_living),
            (YOUNGER, !is_living),
            (EXITS, !is_living),
            (NEXITS, !is_living),
        ];
        must_be_zero.iter().try_for_each(|&(field, must)| self.is_zero(field, record, must))
    }

    /// Rule 12: 0 is in the link of a free cell and of a timer that is not queued.
    fn has_no_link_left_over(self, region: Region, i: usize) -> Result<(), String> {
        match region {
            Cell => self.is_zero(CELL_NEXT, i, !self.is_taken(i)),
            Timer | TimerLink => self.is_zero(TIMER_NEXT, i, self.get(IS_QUEUED, i) == 0),
            _ => Ok(()),
        }
    }

    /// Where a field must be 0 it is.
    fn is_zero(self, field: Field, i: usize, must: bool) -> Result<(), String> {
        match self.get(field, i) {
            value if must && value != 0 => {
                let place = locate(self.z, field.at(self.z, i));
                Err(format!("{value} is left over in {place}"))
            }
            _ => Ok(()),
        }
    }
}

/// The field that has the byte `within` a record; none where it is spare.
fn field_of(region: Region, within: usize) -> Option<Field> {
    let has = |f: &&Field| f.region == region && (f.offset..f.offset + f.width).contains(&within);
    FIELDS.iter().find(has).copied()
}

/// The region of a byte, the record there, and the byte within it.
fn position(z: Sizes, at: usize) -> (Region, usize, usize) {
    let region = REGIONS.into_iter().find(|region| at < region.ends(z)).expect("in the state");
    let (from, each) = (at - region.begins(z), region.bytes_each());
    (region, from / each, from % each)
}

/// Fill what the machine has no use for, each number within its range, and the
/// spare bytes.
pub fn fill(bytes: &mut [u8], z: Sizes, random: &mut Random) {
    let was = bytes.to_vec();
    let was = State { bytes: &was, z };
    for region in REGIONS {
        let each = region.bytes_each();
        let spare: Vec<_> = (0..each).filter(|&at| field_of(region, at).is_none()).collect();
        for record in bytes[region.begins(z)..region.ends(z)].chunks_exact_mut(each) {
            spare.iter().for_each(|&at| record[at] = random.bits() as u8);
        }
    }
    for field in FIELDS {
        for i in (0..field.region.records(z)).filter(|&i| !was.is_used(*field, i)) {
            field.set(bytes, z, i, any(field.highest(z), random));
        }
    }
}

/// A number up to `highest`.
fn any(highest: u64, random: &mut Random) -> u64 {
    match highest.checked_add(1) {
        None => random.bits(),
        Some(limit) => random.below(limit),
    }
}

/// A state's bytes before a step.
pub struct Before {
    bytes: Vec<u8>,
    z: Sizes,
}

impl Before {
    pub fn new(bytes: &[u8], z: Sizes) -> Before {
        Before { bytes: bytes.to_vec(), z }
    }

    /// The step has left the bytes `now` as it must.  They are those before the
    /// next.
    pub fn step(&mut self, now: &[u8]) -> Result<(), String> {
        let blocks = self.changed_blocks(now);
        for at in blocks.iter().cloned().flatten().filter(|&at| self.bytes[at] != now[at]) {
            self.compare(at, now)?;
        }
        let state = State { bytes: now, z: self.z };
        (0..self.z.p).try_for_each(|record| state.has_nothing_left_over(record))?;
        for block in blocks {
            self.bytes[block.clone()].copy_from_slice(&now[block]);
        }
        Ok(())
    }

    fn changed_blocks(&self, now: &[u8]) -> Vec<Range<usize>> {
        let all = (0..now.len()).step_by(BLOCK).map(|at| at..now.len().min(at + BLOCK));
        all.filter(|block| self.bytes[block.clone()] != now[block.clone()]).collect()
    }

    /// Whether a step may change the byte at `at`.
    fn compare(&self, at: usize, now: &[u8]) -> Result<(), String> {
        let (before, now) =
            (State { bytes: &self.bytes, z: self.z }, State { bytes: now, z: self.z });
        let (region, i, within) = position(self.z, at);
        let place = || locate(self.z, at);
        now.has_no_link_left_over(region, i)?;
        let Some(field) = field_of(region, within) else {
            return Err(format!("{} is changed", place()));
        };
        let (was, is) = (before.get(field, i), now.get(field, i));
        match (before.is_used(field, i), now.is_used(field, i)) {
            (_, true) => Ok(()),
            (true, false) => Err(format!("{} is used no more: was {was}, is {is}", place())),
            (false, false) => Err(format!("{} is not used: was {was}, is {is}", place())),
        }
    }
}
