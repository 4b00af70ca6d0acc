//! States to be handed to `step`: well formed, reached by steps or simulated,
//! and damaged.

use crate::bytes;
use crate::library;
use crate::pieces::{ANSWER, put_step};
use crate::steps;
use oracle::random::Random;
use oracle::sizes::Sizes;
use outside::damage::{self, Base, Damage};
use outside::encode::{Rest, decode, encode};
use outside::layout::{LAST_NOW, NEXT_PID, put, total};
use outside::machine::Machine;
use outside::random::Random as Other;
use outside::simulate;
use outside::slips::SLIPS;
use outside::{layout, pairs};

/// Subjects made of one well-formed state.
const OF_ONE: usize = 120;
/// Steps by which a state is reached, at most.
const STEPS: u64 = 300;

pub struct Subjects {
    random: Random,
    rng: Other,
    machine: Machine,
    bytes: Vec<u8>,
    /// Damages that need to know the state.
    damages: Vec<Damage>,
    left: usize,
}

impl Subjects {
    pub fn new(seed: u64) -> Subjects {
        let machine = Machine::fresh(layout::Sizes { p: 1, r: 1, q: 1, k: 1, c: 1 }, 1);
        Subjects {
            random: Random::new(seed),
            rng: Other::new(seed),
            machine,
            bytes: Vec::new(),
            damages: Vec::new(),
            left: 0,
        }
    }

    /// The next subject, and what it is.
    pub fn next(&mut self) -> (&'static str, Vec<u8>) {
        if self.left == 0 {
            self.another();
            self.left = OF_ONE;
        }
        self.left -= 1;
        match self.random.below(20) {
            0 => ("cut off", self.cut_off()),
            1 => ("random bytes", self.noise()),
            2 => ("random bytes behind a header", [self.header(), self.noise()].concat()),
            3 => ("no bytes", Vec::new()),
            4 => ("as it is", self.bytes.clone()),
            5 => ("no pid left", self.without_pids()),
            6 => self.slip(),
            _ => self.damaged(),
        }
    }

    fn cut_off(&mut self) -> Vec<u8> {
        let length = self.random.below(self.bytes.len() as u64) as usize;
        self.bytes[..length].to_vec()
    }

    /// The header, or its fields up to the sizes.
    fn header(&mut self) -> Vec<u8> {
        self.bytes[..self.random.pick(&[26, 80])].to_vec()
    }

    fn without_pids(&self) -> Vec<u8> {
        let mut state = self.bytes.clone();
        NEXT_PID.set(&mut state, self.machine.z, 0, u64::MAX);
        state
    }

    fn noise(&mut self) -> Vec<u8> {
        (0..self.random.below(12_000)).map(|_| self.random.bits() as u8).collect()
    }

    /// Another well-formed state.
    fn another(&mut self) {
        let rng = &mut self.rng;
        self.bytes = match self.random.below(10) {
            0..4 => self.reached(),
            4 => encode(&simulate::rich(simulate::middle(rng), rng), Rest::Of(rng.bits())),
            _ => encode(&simulate::rich(simulate::small(rng), rng), Rest::Of(rng.bits())),
        };
        self.machine = decode(&self.bytes).expect("a well-formed state");
        let behind = self.random.pick(&[0, 0, 1, 30]);
        self.bytes.extend((0..behind).map(|at| at as u8 ^ 0x77));
        let base = Base { bytes: &self.bytes, machine: &self.machine, z: self.machine.z };
        self.damages = pairs::links_and_pairs(&base, 2, &mut self.rng);
    }

    /// A state that `run` reached from a fresh one.
    fn reached(&mut self) -> Vec<u8> {
        let random = &mut self.random;
        let (processes, rendez, locks) =
            (random.pick(&[1, 2, 4, 8]), random.pick(&[1, 2, 4]), random.pick(&[1, 2]));
        let (timers, cells) = (random.pick(&[1, 2, 4]), random.pick(&[1, 3, 9]));
        let hz = random.pick(&[1, 3, 1_000, 1_000_000, 4_294_967_295]);
        let z = layout::Sizes { p: processes, r: rendez, q: locks, k: timers, c: cells };
        let sizes = Sizes { processes, rendez, locks, timers, cells, hz };
        let mut state = vec![0; total(z)];
        let made = library::make(&mut state, [z.p, z.r, z.q, z.k, z.c].map(|n| n as u64), hz);
        assert!(made == 0, "make says {made}");
        for _ in 0..random.below(STEPS) {
            let now = LAST_NOW.get(&state, z, 0) + random.pick(&[0, 1, hz / 100]);
            let dispatch = random.chance(25);
            let line = if dispatch { "sched".into() } else { steps::line(random, &sizes, now) };
            let mut input = Vec::new();
            put_step(&mut input, &bytes::of_line(line.as_bytes()).expect("a step"));
            library::run(&mut state, &input, &mut [0; ANSWER]);
        }
        state
    }

    /// A machine with one thing wrong, written without a fault.
    fn slip(&mut self) -> (&'static str, Vec<u8>) {
        let mut machine = self.machine.clone();
        let (kind, slip) = self.random.pick(SLIPS);
        match slip(&mut machine, &mut self.rng) {
            Some(()) => (kind, encode(&machine, Rest::Of(self.rng.bits()))),
            None => ("as it is", self.bytes.clone()),
        }
    }

    fn damaged(&mut self) -> (&'static str, Vec<u8>) {
        let rng = &mut self.rng;
        let base = Base { bytes: &self.bytes, machine: &self.machine, z: self.machine.z };
        let damage = match self.random.below(10) {
            0 => damage::two_fields(&base, rng),
            1 | 2 => damage::some_bytes(&base, rng),
            3 => damage::spare_bytes(&base, rng),
            4..7 if !self.damages.is_empty() => self.damages[rng.below(self.damages.len())].clone(),
            _ => damage::any_field(&base, rng),
        };
        let mut state = self.bytes.clone();
        for edit in &damage.edits {
            put(&mut state, edit.at, edit.width, edit.value);
        }
        (damage.kind, state)
    }
}
