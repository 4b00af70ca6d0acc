//! Readings and durations, with few firings.

use super::Generator;
use crate::driver::Call;

/// The most firings of a step.
pub const STEP_FIRINGS: u64 = 60;
/// The highest NOW that is accepted.
pub const LAST_READING: u64 = (1 << 51) - 1;

impl Generator {
    pub(super) fn tick(&self) -> u64 {
        self.driver.sizes.hz.div_ceil(100)
    }

    /// S and N: mostly one that is soon over, sometimes one that ends where
    /// another timer does, sometimes one that is refused.
    pub(super) fn duration(&mut self, now: u64, periodic: bool) -> String {
        let hz = self.driver.sizes.hz;
        let most = ((1u128 << 63) - 1) * 1_000_000_000 / u128::from(hz);
        let nanos: u128 = match self.random.below(40) {
            0 => 0,
            1 => 99_999,
            2 => most + 1,
            3 if !periodic => most,
            4 => u128::from(u64::MAX) * 1_000_000_000,
            5 if !periodic => 1,
            6..18 => self.equal_deadline(now),
            18 => 100_000,
            _ => self.random.pick(&[1, 2, 5, 10, 10, 10, 20, 30, 50, 100]) * 1_000_000,
        };
        let nanos = if periodic && (100_000..1_000_000).contains(&nanos) && self.random.chance(80) {
            10_000_000
        } else {
            nanos
        };
        let seconds = (nanos / 1_000_000_000).min(u128::from(u64::MAX));
        format!("{seconds} {}", nanos % 1_000_000_000)
    }

    /// Nanoseconds that end with some queued timer.
    pub(super) fn equal_deadline(&mut self, now: u64) -> u128 {
        let dues: Vec<_> = self.deadlines().into_iter().filter(|&due| due > now).collect();
        let counts = self.random.pick_any(&dues).map_or(1000, |due| due - now);
        u128::from(counts) * 1_000_000_000 / u128::from(self.driver.sizes.hz)
    }

    /// The deadlines of all queued timers, the earliest first.
    pub(super) fn deadlines(&self) -> Vec<u64> {
        let kernel = self.driver.timers.iter().flatten().map(|timer| timer.due);
        let own = self.driver.calls.values().filter_map(|call| match call {
            Call::Tsleep { due, .. } => *due,
            _ => None,
        });
        let mut all: Vec<_> = kernel.chain(own).collect();
        all.sort();
        all
    }

    /// A NOW for a step that fires nothing: mostly the last one.
    pub(super) fn now(&mut self) -> u64 {
        let last = self.driver.last_now;
        match self.random.below(40) {
            0 => self.refused_now(),
            1..30 => last,
            _ => {
                let wanted = last + self.stride();
                self.affordable(wanted)
            }
        }
    }

    /// A NOW that goes backwards, or is too large.
    pub(super) fn refused_now(&mut self) -> u64 {
        let back = self.driver.last_now.checked_sub(1).unwrap_or(LAST_READING + 1);
        self.random.pick(&[back, back, 1 << 51, LAST_READING + 2, u64::MAX])
    }

    /// A NOW for intr: often at a deadline, or just before.
    pub(super) fn now_to_fire(&mut self) -> u64 {
        let last = self.driver.last_now;
        let deadlines = self.deadlines();
        let next = deadlines.iter().copied().find(|&due| due > last);
        let wanted = match (self.random.below(20), next) {
            (0, _) => return self.refused_now(),
            (1, _) if self.may_leap() => self.random.pick(&[1 << 40, 1 << 50, LAST_READING]),
            (2, Some(due)) => due - 1,
            (3..11, Some(due)) => due,
            (11 | 12, Some(_)) => self.random.pick(&deadlines),
            _ => last + self.stride(),
        };
        self.affordable(wanted.clamp(last, LAST_READING.max(last)))
    }

    /// The latest NOW up to `wanted` whose firings are within the limits.
    pub(super) fn affordable(&mut self, wanted: u64) -> u64 {
        let most = self.firings.min(STEP_FIRINGS);
        let (mut good, mut bad) = (self.driver.last_now, wanted + 1);
        while bad - good > 1 {
            let middle = good + (bad - good) / 2;
            if self.driver.firings(middle) <= most { good = middle } else { bad = middle }
        }
        good
    }

    /// Whether NOW may become huge: late in a list, and nothing periodic.
    pub(super) fn may_leap(&self) -> bool {
        let periodic = self.driver.timers.iter().flatten().any(|timer| timer.period.is_some());
        !periodic && self.steps < self.count / 5
    }

    /// Counts to go forward: parts of a tick, ticks, or a quantum.
    pub(super) fn stride(&mut self) -> u64 {
        let tick = self.tick();
        match self.random.below(10) {
            0 => 0,
            1 => 1,
            2 => tick - 1,
            3 => tick / 10,
            4 => 3 * tick,
            5 | 6 => 10 * tick,
            _ => tick,
        }
    }
}
