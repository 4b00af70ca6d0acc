//! What a step names: flags, Rendez, conditions, locks and timers.

use super::Generator;
use super::look::{condition_of, locks, rendez_of, sleepers};
use crate::driver::queued;
use crate::perform::parts;
use crate::sizes::CONDITIONS;

/// Flags that rfork accepts: with RFPROC, and without.
pub const FORKS: [u32; 12] = [16, 16, 16, 16, 20, 24, 80, 80, 84, 4112, 8208, 0x8010_8390];
const CHANGES: [u32; 7] = [0, 4, 8192, 4096, 1, 2, 0xffff_0280];
/// Flags that it refuses.
const BAD_FLAGS: [u32; 12] = [4100, 64, 32, 48, 1041, 2066, 1040, 2064, 16400, 4116, 16384, 112];

impl Generator {
    /// M: mostly 0.
    pub(super) fn failing(&mut self, most: u64) -> u64 {
        if self.random.chance(88) { 0 } else { self.random.below(most + 1) }
    }

    pub(super) fn flags(&mut self) -> u32 {
        match self.random.below(20) {
            0 | 1 => self.random.pick(&BAD_FLAGS),
            2 | 3 => self.random.pick(&CHANGES),
            4 => self.random.bits() as u32,
            _ => self.random.pick(&FORKS),
        }
    }

    /// A number below `limit`, mostly a small one, so that they meet.
    pub(super) fn small(&mut self, limit: usize) -> usize {
        let most = self.random.pick(&[2, 2, 2, 4, 4, limit]).min(limit);
        self.random.below(most as u64) as usize
    }

    /// R and C of a sleep: often where one sleeps, or one that is woken and
    /// may sleep again.
    pub(super) fn place(&mut self) -> String {
        let places = match self.random.below(10) {
            0 => sleepers(),
            1..5 => self.woken(),
            _ => Vec::new(),
        };
        let r = self.random.pick_any(&places);
        let r = r.unwrap_or_else(|| self.small(self.driver.sizes.rendez));
        format!("{r} {}", self.condition())
    }

    pub(super) fn condition(&mut self) -> usize {
        let c = self.small(CONDITIONS);
        let another = self.small(CONDITIONS);
        if parts().conditions[c].get() { another } else { c }
    }

    /// The Rendez of the ready processes whose sleep has not returned.
    pub(super) fn woken(&self) -> Vec<usize> {
        // SAFETY: the queued processes are alive.
        let pids = queued().into_iter().map(|p| unsafe { (*p).pid });
        let calls = pids.filter_map(|pid| self.driver.calls.get(&pid));
        calls.filter_map(rendez_of).collect()
    }

    pub(super) fn rendez_to_wake(&mut self) -> usize {
        let asleep = if self.random.chance(75) { sleepers() } else { Vec::new() };
        let r = self.random.pick_any(&asleep);
        r.unwrap_or_else(|| self.small(self.driver.sizes.rendez))
    }

    pub(super) fn condition_to_set(&mut self) -> usize {
        let calls: Vec<_> = self.driver.calls.iter().map(|(&pid, &call)| (pid, call)).collect();
        let mut named: Vec<_> =
            calls.iter().filter_map(|(pid, call)| condition_of(call).map(|c| (*pid, c))).collect();
        named.sort();
        let named = if self.random.chance(60) { named } else { Vec::new() };
        let c = self.random.pick_any(&named);
        c.map_or_else(|| self.small(CONDITIONS), |c| c.1)
    }

    pub(super) fn lock_to_take(&mut self) -> usize {
        let held = if self.random.chance(50) { locks(|s| s.locked) } else { Vec::new() };
        let q = self.random.pick_any(&held);
        q.unwrap_or_else(|| self.small(self.driver.sizes.locks))
    }

    pub(super) fn lock_to_give_up(&mut self) -> usize {
        let some = match self.random.below(10) {
            0 => Vec::new(),
            1..4 => locks(|s| s.locked),
            _ => locks(|s| !s.head.is_null()),
        };
        let q = self.random.pick_any(&some);
        q.unwrap_or_else(|| self.small(self.driver.sizes.locks))
    }

    pub(super) fn timer(&mut self) -> usize {
        match self.driver.sizes.timers {
            1 => 1,
            timers => 1 + self.small(timers - 1),
        }
    }

    pub(super) fn tsleep(&mut self) -> String {
        let now = self.now();
        let place = self.place();
        format!("tsleep {place} {} {now}", self.duration(now, false))
    }

    pub(super) fn tadd(&mut self) -> String {
        let now = self.now();
        let (t, periodic) = (self.timer(), self.random.chance(45));
        let d = self.duration(now, periodic);
        let woken = self.rendez_to_wake();
        format!("tadd {t} {} {d} {woken} {now}", u8::from(periodic))
    }
}
