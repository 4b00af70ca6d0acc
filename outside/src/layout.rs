//! The tables of docs/STATE.md: regions and fields.

use Region::*;
use Values::*;

/// P, R, Q, K and C.
#[derive(Clone, Copy, PartialEq, Eq, Debug)]
pub struct Sizes {
    pub p: usize,
    pub r: usize,
    pub q: usize,
    pub k: usize,
    pub c: usize,
}

#[derive(Clone, Copy, PartialEq, Eq, Debug)]
pub enum Region {
    Header,
    Process,
    Name,
    Rendez,
    Lock,
    Timer,
    Cell,
    Message,
    Condition,
    RecordWord,
    CellWord,
    FullWord,
    TimerLink,
}

pub const REGIONS: [Region; 13] = [
    Header, Process, Name, Rendez, Lock, Timer, Cell, Message, Condition, RecordWord, CellWord,
    FullWord, TimerLink,
];

impl Region {
    pub fn records(self, z: Sizes) -> usize {
        match self {
            Header => 1,
            Process => z.p,
            Name => 28 * z.p,
            Rendez => z.r,
            Lock => z.q,
            Timer | TimerLink => z.k + z.p,
            Cell => z.c,
            Message => 127 * z.c,
            Condition => 256,
            RecordWord => 64,
            CellWord => 1_016,
            FullWord => 16,
        }
    }

    #[inline(always)]
    pub fn bytes_each(self) -> usize {
        match self {
            Header => 80,
            Process => 48,
            Name | Message | Condition => 1,
            Rendez | TimerLink => 2,
            Lock => 6,
            Timer => 24,
            Cell => 16,
            RecordWord | CellWord | FullWord => 8,
        }
    }

    #[inline(always)]
    pub fn begins(self, z: Sizes) -> usize {
        let Sizes { p, r, q, k, c } = z;
        match self {
            Header => 0,
            Process => 80,
            Name => 80 + 48 * p,
            Rendez => 80 + 76 * p,
            Lock => 80 + 76 * p + 2 * r,
            Timer => 80 + 76 * p + 2 * r + 6 * q,
            Cell => 80 + 100 * p + 2 * r + 6 * q + 24 * k,
            Message => 80 + 100 * p + 2 * r + 6 * q + 24 * k + 16 * c,
            Condition => 80 + 100 * p + 2 * r + 6 * q + 24 * k + 143 * c,
            RecordWord => 336 + 100 * p + 2 * r + 6 * q + 24 * k + 143 * c,
            CellWord => 848 + 100 * p + 2 * r + 6 * q + 24 * k + 143 * c,
            FullWord => 8_976 + 100 * p + 2 * r + 6 * q + 24 * k + 143 * c,
            TimerLink => 9_104 + 100 * p + 2 * r + 6 * q + 24 * k + 143 * c,
        }
    }

    pub fn ends(self, z: Sizes) -> usize {
        self.begins(z) + self.records(z) * self.bytes_each()
    }

    pub fn word(self) -> &'static str {
        match self {
            Header => "header",
            Process => "process record",
            Name => "name byte",
            Rendez => "Rendez",
            Lock => "lock",
            Timer => "timer",
            Cell => "cell",
            Message => "message byte",
            Condition => "condition",
            RecordWord => "record word",
            CellWord => "cell word",
            FullWord => "full word",
            TimerLink => "timer link",
        }
    }
}

/// How many bytes a state takes.
pub fn total(z: Sizes) -> usize {
    9_104 + 102 * z.p + 2 * z.r + 6 * z.q + 26 * z.k + 143 * z.c
}

/// What a field may hold.
#[derive(Clone, Copy, PartialEq, Eq, Debug)]
pub enum Values {
    Bits,
    ToRecord,
    ToTimer,
    ToCell,
    OneRendez,
    UpTo(u64),
}

#[derive(Clone, Copy, PartialEq, Eq, Debug)]
pub struct Field {
    pub region: Region,
    pub offset: usize,
    pub width: usize,
    pub name: &'static str,
    pub values: Values,
}

impl Field {
    /// Where the field of record `i` of its region begins.
    #[inline(always)]
    pub fn at(&self, z: Sizes, i: usize) -> usize {
        self.region.begins(z) + i * self.region.bytes_each() + self.offset
    }

    #[inline(always)]
    pub fn get(&self, bytes: &[u8], z: Sizes, i: usize) -> u64 {
        number(bytes, self.at(z, i), self.width)
    }

    pub fn set(&self, bytes: &mut [u8], z: Sizes, i: usize, value: u64) {
        put(bytes, self.at(z, i), self.width, value);
    }

    /// The highest number of its bytes.
    pub fn ones(&self) -> u64 {
        u64::MAX >> (64 - 8 * self.width)
    }

    /// The highest value in range; the lowest is 0.
    pub fn highest(&self, z: Sizes) -> u64 {
        match self.values {
            Bits => self.ones(),
            ToRecord => z.p as u64,
            ToTimer => (z.k + z.p) as u64,
            ToCell => z.c as u64,
            OneRendez => z.r.saturating_sub(1) as u64,
            UpTo(n) => n,
        }
    }

    pub fn is_link(&self) -> bool {
        matches!(self.values, ToRecord | ToTimer | ToCell)
    }
}

/// The number in `width` bytes from `at`, little end first.
#[inline(always)]
pub fn number(bytes: &[u8], at: usize, width: usize) -> u64 {
    let mut whole = [0; 8];
    whole[..width].copy_from_slice(&bytes[at..at + width]);
    u64::from_le_bytes(whole)
}

pub fn put(bytes: &mut [u8], at: usize, width: usize, value: u64) {
    bytes[at..at + width].copy_from_slice(&value.to_le_bytes()[..width]);
}

macro_rules! fields {
    ($($id:ident: $region:ident, $offset:literal, $width:literal, $name:literal, $values:expr;)*) => {
        $(pub const $id: Field =
            Field { region: $region, offset: $offset, width: $width, name: $name, values: $values };)*
        pub const FIELDS: &[Field] = &[$($id),*];
    };
}

fields! {
    MARK: Header, 0, 8, "mark", Bits;
    LAYOUT_NUMBER: Header, 8, 4, "layoutNumber", Bits;
    HZ: Header, 12, 4, "hz", Bits;
    SIZE_PROCESSES: Header, 16, 2, "sizeProcesses", Bits;
    SIZE_RENDEZ: Header, 18, 2, "sizeRendez", Bits;
    SIZE_LOCKS: Header, 20, 2, "sizeLocks", Bits;
    SIZE_TIMERS: Header, 22, 2, "sizeTimers", Bits;
    SIZE_CELLS: Header, 24, 2, "sizeCells", Bits;
    UP: Header, 26, 2, "up", ToRecord;
    RUN_HEAD: Header, 28, 2, "runHead", ToRecord;
    RUN_TAIL: Header, 30, 2, "runTail", ToRecord;
    ASLEEP_COUNT: Header, 32, 2, "asleepCount", Bits;
    TIMER_HEAD: Header, 34, 2, "timerHead", ToTimer;
    OLDEST: Header, 36, 2, "oldest", ToRecord;
    YOUNGEST: Header, 38, 2, "youngest", ToRecord;
    NEXT_PID: Header, 40, 8, "nextPid", Bits;
    TICKS: Header, 48, 8, "ticks", Bits;
    LAST_NOW: Header, 56, 8, "lastNow", Bits;
    FULL_RECORDS: Header, 64, 8, "fullRecords", Bits;
    FULL_CELLS: Header, 72, 8, "fullCells", Bits;
    PID: Process, 0, 8, "pid", Bits;
    PARENT: Process, 8, 8, "parent", Bits;
    QUANTUM_END: Process, 16, 8, "quantumEnd", Bits;
    NEXT: Process, 24, 2, "next", ToRecord;
    OLDER: Process, 26, 2, "older", ToRecord;
    YOUNGER: Process, 28, 2, "younger", ToRecord;
    PARENT_AT: Process, 30, 2, "parentAt", ToRecord;
    NCHILD: Process, 32, 2, "nchild", Bits;
    EXITS: Process, 34, 2, "exits", ToCell;
    NEXITS: Process, 36, 1, "nexits", UpTo(128);
    STATE_OF: Process, 37, 1, "stateOf", UpTo(3);
    RESUME_KIND: Process, 38, 1, "resumeKind", UpTo(4);
    RESUME_CONDITION: Process, 39, 1, "resumeCondition", Bits;
    RESUME_OBJECT: Process, 40, 2, "resumeObject", Bits;
    NAME_BYTE: Name, 0, 1, "nameByte", Bits;
    SLEEPER_OF: Rendez, 0, 2, "sleeperOf", ToRecord;
    HELD: Lock, 0, 2, "held", UpTo(1);
    LOCK_HEAD: Lock, 2, 2, "lockHead", ToRecord;
    LOCK_TAIL: Lock, 4, 2, "lockTail", ToRecord;
    DEADLINE: Timer, 0, 8, "deadline", Bits;
    PERIOD: Timer, 8, 8, "period", UpTo((1 << 63) - 1);
    TIMER_RENDEZ: Timer, 16, 2, "timerRendez", OneRendez;
    TIMER_NEXT: TimerLink, 0, 2, "timerNext", ToTimer;
    IS_QUEUED: Timer, 20, 1, "isQueued", UpTo(1);
    EXIT_PID: Cell, 0, 8, "exitPid", Bits;
    CELL_NEXT: Cell, 8, 2, "cellNext", ToCell;
    OWNER: Cell, 10, 2, "owner", ToRecord;
    MESSAGE_LENGTH: Cell, 12, 1, "messageLength", UpTo(127);
    MESSAGE_BYTE: Message, 0, 1, "messageByte", Bits;
    CONDITION_BIT: Condition, 0, 1, "conditionBit", UpTo(1);
    USED_RECORDS: RecordWord, 0, 8, "usedRecords", Bits;
    USED_CELLS: CellWord, 0, 8, "usedCells", Bits;
    FULL_CELL_WORDS: FullWord, 0, 8, "fullCellWords", Bits;
}

/// The bytes `HUIABUNK`, and the layout's number.
pub const MARK_BYTES: [u8; 8] = *b"HUIABUNK";
pub const THIS_LAYOUT: u64 = 1;

/// Nanoseconds × hz ÷ 1,000,000,000, rounded up.
pub fn counts(nanoseconds: u64, hz: u64) -> u64 {
    (u128::from(nanoseconds) * u128::from(hz)).div_ceil(1_000_000_000) as u64
}

/// 10 ms: the period of timer 0.
pub const TICK: u64 = 10_000_000;
/// 100 µs: the shortest period.
pub const SHORTEST: u64 = 100_000;
/// The highest NOW that a step may name.
pub const LAST_TIME: u64 = (1 << 51) - 1;

/// Which field of which record holds the byte at `at`, or which region.
pub fn locate(z: Sizes, at: usize) -> String {
    let Some(region) = REGIONS.into_iter().find(|region| at < region.ends(z)) else {
        return format!("byte {at}, past the state");
    };
    let i = (at - region.begins(z)) / region.bytes_each();
    let within = (at - region.begins(z)) % region.bytes_each();
    let holds =
        |f: &&Field| f.region == region && f.offset <= within && within < f.offset + f.width;
    let name = FIELDS.iter().find(holds).map_or("spare", |f| f.name);
    if region == Header {
        format!("header {name}")
    } else {
        format!("{} {i} {name}", region.word())
    }
}

/// Do the tables of the document agree with each other?
pub fn tables_agree(z: Sizes) -> bool {
    let follow = REGIONS.windows(2).all(|pair| pair[0].ends(z) == pair[1].begins(z));
    let fit = FIELDS.iter().all(|f| f.offset + f.width <= f.region.bytes_each());
    let apart = FIELDS.windows(2).all(|pair| {
        pair[0].region != pair[1].region || pair[0].offset + pair[0].width <= pair[1].offset
    });
    follow && TimerLink.ends(z) == total(z) && fit && apart
}
