//! Some lines that together go where chance seldom does.

use super::Generator;
use super::look::running;
use super::times::{LAST_READING, STEP_FIRINGS};
use crate::driver::{is_none_queued, queued};

impl Generator {
    /// Some lines that together go where chance seldom does.
    pub(super) fn new_plan(&mut self) -> Vec<String> {
        if !running() {
            return Vec::new();
        }
        match self.random.below(7) {
            _ if self.driver.sizes.cells < 5 && self.random.chance(30) => self.fill_the_cells(),
            0 => self.use_up_the_quantum(),
            1 => self.wake_before_the_timeout(),
            2 => self.wait_for_a_lock(),
            3 => self.have_children(),
            4 => self.same_deadlines(),
            _ => self.sleep_where_one_is_woken(),
        }
    }

    pub(super) fn use_up_the_quantum(&mut self) -> Vec<String> {
        let (now, tick) = (self.driver.last_now, self.tick());
        let ends = now + 10 * tick;
        if self.driver.firings(ends) + 20 > self.firings.min(STEP_FIRINGS) || ends > LAST_READING {
            return Vec::new();
        }
        let before = format!("intr {}", ends - self.random.pick(&[1, tick]));
        let last = self.random.pick(&["yield", "yield", "sched", "exit slow", "due"]);
        let clock = format!("clock {now}");
        [clock, before, "due".into(), format!("intr {ends}"), "due".into(), last.into()].into()
    }

    /// A tsleep woken before its timer fires, which then wakes another.
    pub(super) fn wake_before_the_timeout(&mut self) -> Vec<String> {
        let now = self.driver.last_now;
        let r = self.small(self.driver.sizes.rendez);
        let ends = now + self.tick();
        if self.driver.firings(ends) + 1 > self.firings.min(STEP_FIRINGS) || ends > LAST_READING {
            return Vec::new();
        }
        let tsleep = format!("tsleep {r} {} 0 10000000 {now}", self.condition());
        let sleep = format!("sleep {r} {}", self.condition());
        let wakeup = format!("wakeup {r}");
        [tsleep, wakeup, "sched".into(), sleep, format!("intr {ends}"), "sched".into()].into()
    }

    /// Each ready process asks for one lock; then it is given up.
    pub(super) fn wait_for_a_lock(&mut self) -> Vec<String> {
        let q = self.lock_to_take();
        let ask = [format!("qlock {q}"), "sched".into()];
        let mut lines = vec![ask; 1 + queued().len().min(4)].concat();
        lines.extend([format!("qunlock {q}"), "sched".into(), format!("qunlock {q}")]);
        lines
    }

    /// Children that exit before or after their parent waits.
    pub(super) fn have_children(&mut self) -> Vec<String> {
        let children = 1 + self.random.below(3) as usize;
        let first = self.random.pick(&["wait", "yield", "wait"]).to_string();
        let mut lines = vec!["rfork 16 0".to_string(); children];
        lines.push(first);
        for _ in 0..children + queued().len() {
            let status = self.random.pick(&["exit", "exit a", "exit bay 7", "yield"]);
            lines.extend(["sched".to_string(), status.to_string()]);
        }
        lines.extend(["sched".to_string(), "wait".to_string()]);
        lines
    }

    /// One child after another leaves a message, until there is no cell.
    pub(super) fn fill_the_cells(&mut self) -> Vec<String> {
        if !is_none_queued() {
            return Vec::new();
        }
        let status = self.random.pick(&["exit", "exit m", "exit mass"]);
        let child = ["rfork 16 0", "yield", "sched", status, "sched"];
        vec![child; self.driver.sizes.cells + 1].concat().into_iter().map(String::from).collect()
    }

    /// Periodic timers that fire together, one of them moved.
    pub(super) fn same_deadlines(&mut self) -> Vec<String> {
        let (now, tick) = (self.driver.last_now, self.tick());
        let ends = now + self.random.pick(&[1, 2]) * tick;
        if self.driver.firings(ends) + 12 > self.firings.min(STEP_FIRINGS) || ends > LAST_READING {
            return Vec::new();
        }
        let add = |t: usize, kind: u8, ms: u64, r: usize| {
            format!("tadd {t} {kind} 0 {} {r} {now}", ms * 1_000_000)
        };
        let (a, b) = (self.timer(), self.timer());
        let (r, s) = (self.rendez_to_wake(), self.rendez_to_wake());
        let mut lines = vec![add(a, 1, 10, r), add(b, 1, 5, s), format!("clock {now}")];
        lines.extend(self.random.chance(50).then(|| add(a, 1, 10, s)));
        lines.extend(self.random.chance(50).then(|| add(b, 0, 10, r)));
        lines.push(format!("intr {ends}"));
        lines
    }

    /// A sleep where a woken process may have to sleep again.
    pub(super) fn sleep_where_one_is_woken(&mut self) -> Vec<String> {
        let r = self.rendez_to_wake();
        let sleep = format!("sleep {r} {}", self.condition());
        vec![format!("wakeup {r}"), sleep, "sched".into()]
    }
}
