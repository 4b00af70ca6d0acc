//! A machine in plain structures, and what can happen to it.

use crate::layout::{LAST_TIME, Sizes, TICK, counts};
use std::collections::VecDeque;

/// A call that has not returned.
#[derive(Clone, Copy, PartialEq, Eq, Debug)]
pub enum Call {
    None,
    Sleep { rendez: usize, condition: u8 },
    Tsleep { rendez: usize, condition: u8 },
    Qlock { lock: usize },
    Wait,
}

#[derive(Clone, PartialEq, Eq, Debug)]
pub struct Exit {
    pub cell: usize,
    pub pid: u64,
    pub message: Vec<u8>,
}

#[derive(Clone, PartialEq, Eq, Debug)]
pub struct Process {
    pub pid: u64,
    pub parent: u64,
    pub quantum_end: u64,
    pub name: [u8; 28],
    pub call: Call,
    /// Newest first.
    pub exits: VecDeque<Exit>,
}

#[derive(Clone, PartialEq, Eq, Debug, Default)]
pub struct Lock {
    pub held: bool,
    pub waiters: VecDeque<usize>,
}

/// What a kernel timer does.
#[derive(Clone, Copy, PartialEq, Eq, Debug)]
pub struct Setting {
    pub period: u64,
    pub rendez: usize,
}

#[derive(Clone, PartialEq, Eq, Debug)]
pub struct Machine {
    pub z: Sizes,
    pub hz: u64,
    pub next_pid: u64,
    pub ticks: u64,
    pub last_now: u64,
    pub running: Option<usize>,
    pub ready: VecDeque<usize>,
    pub records: Vec<Option<Process>>,
    /// Who sleeps on each Rendez.
    pub sleepers: Vec<Option<usize>>,
    /// Who sleeps on its own waitr.
    pub on_waitr: Vec<bool>,
    pub locks: Vec<Lock>,
    pub settings: Vec<Setting>,
    /// The queued timers with their deadlines.
    pub timers: VecDeque<(usize, u64)>,
    pub conditions: Vec<bool>,
    /// Which cells are in use.
    pub used_cells: Vec<bool>,
}

impl Machine {
    pub fn fresh(z: Sizes, hz: u64) -> Machine {
        let mut settings = vec![Setting { period: 0, rendez: 0 }; z.k];
        if let Some(first) = settings.first_mut() {
            first.period = counts(TICK, hz);
        }
        Machine {
            z,
            hz,
            next_pid: 1,
            ticks: 0,
            last_now: 0,
            running: None,
            ready: VecDeque::new(),
            records: vec![None; z.p],
            sleepers: vec![None; z.r],
            on_waitr: vec![false; z.p],
            locks: vec![Lock::default(); z.q],
            settings,
            timers: VecDeque::new(),
            conditions: vec![false; 256],
            used_cells: vec![false; z.c],
        }
    }

    pub fn process(&self, i: usize) -> &Process {
        self.records[i].as_ref().expect("a living process")
    }

    pub fn process_mut(&mut self, i: usize) -> &mut Process {
        self.records[i].as_mut().expect("a living process")
    }

    pub fn living(&self) -> Vec<usize> {
        (0..self.z.p).filter(|&i| self.records[i].is_some()).collect()
    }

    pub fn free(&self) -> Vec<usize> {
        (0..self.z.p).filter(|&i| self.records[i].is_none()).collect()
    }

    pub fn free_cells(&self) -> Vec<usize> {
        (0..self.z.c).filter(|&c| !self.used_cells[c]).collect()
    }

    /// The record of the living process with this pid.
    pub fn record_of(&self, pid: u64) -> Option<usize> {
        let has = |record: &Option<Process>| record.as_ref().is_some_and(|p| p.pid == pid);
        self.records.iter().position(has)
    }

    /// A new process, last in the run queue.
    pub fn make(&mut self, record: usize, parent: u64, name: [u8; 28]) {
        let pid = self.next_pid;
        if pid == u64::MAX {
            return;
        }
        self.next_pid += 1;
        let exits = VecDeque::new();
        self.records[record] =
            Some(Process { pid, parent, quantum_end: 0, name, call: Call::None, exits });
        self.ready.push_back(record);
    }

    /// The head of the run queue is dispatched.  Its call returns, unless it
    /// was a sleep that sleeps again.
    pub fn dispatch(&mut self, sleeps_again: bool) {
        if self.running.is_some() {
            return;
        }
        let Some(i) = self.ready.pop_front() else { return };
        let quantum_end = self.ticks + 10;
        self.process_mut(i).quantum_end = quantum_end;
        if let Call::Sleep { rendez, .. } | Call::Tsleep { rendez, .. } = self.process(i).call
            && sleeps_again
            && self.sleepers[rendez].is_none()
        {
            self.sleepers[rendez] = Some(i);
            return;
        }
        self.unqueue(self.z.k + i);
        if self.process(i).call == Call::Wait {
            self.take_exit(i);
        }
        self.process_mut(i).call = Call::None;
        self.running = Some(i);
    }

    fn take_exit(&mut self, i: usize) {
        if let Some(exit) = self.process_mut(i).exits.pop_front() {
            self.used_cells[exit.cell] = false;
        }
    }

    pub fn yields(&mut self) {
        if let Some(i) = self.running.take() {
            self.ready.push_back(i);
        }
    }

    /// Who runs sleeps on this Rendez, with a timer where there is a deadline.
    pub fn sleep(&mut self, rendez: usize, condition: u8, deadline: Option<u64>) {
        let Some(i) = self.running else { return };
        if self.sleepers[rendez].is_some() {
            return;
        }
        self.running = None;
        self.sleepers[rendez] = Some(i);
        self.process_mut(i).call = match deadline {
            None => Call::Sleep { rendez, condition },
            Some(_) => Call::Tsleep { rendez, condition },
        };
        if let Some(deadline) = deadline {
            self.queue(self.z.k + i, deadline);
        }
    }

    pub fn wakeup(&mut self, rendez: usize) {
        if let Some(i) = self.sleepers[rendez].take() {
            self.ready.push_back(i);
        }
    }

    pub fn qlock(&mut self, lock: usize) {
        if !self.locks[lock].held {
            self.locks[lock].held = true;
            return;
        }
        if let Some(i) = self.running.take() {
            self.process_mut(i).call = Call::Qlock { lock };
            self.locks[lock].waiters.push_back(i);
        }
    }

    pub fn qunlock(&mut self, lock: usize) {
        match self.locks[lock].waiters.pop_front() {
            Some(i) => self.ready.push_back(i),
            None => self.locks[lock].held = false,
        }
    }

    pub fn wait(&mut self) {
        let Some(i) = self.running else { return };
        if self.process(i).exits.is_empty() {
            self.running = None;
            self.process_mut(i).call = Call::Wait;
            self.on_waitr[i] = true;
        } else {
            self.take_exit(i);
        }
    }

    /// Who runs exits; its parent, where that lives, has the message in this cell.
    pub fn exit(&mut self, cell: Option<usize>, message: Vec<u8>) {
        let Some(i) = self.running.take() else { return };
        let gone = self.records[i].take().expect("a living process");
        for exit in &gone.exits {
            self.used_cells[exit.cell] = false;
        }
        if gone.parent != 0
            && let Some(parent) = self.record_of(gone.parent)
        {
            self.tell(parent, gone.pid, cell, message);
        }
    }

    /// An exit is queued at a living parent, which wakes from its waitr.
    pub fn tell(&mut self, parent: usize, pid: u64, cell: Option<usize>, message: Vec<u8>) {
        if let Some(cell) = cell
            && self.process(parent).exits.len() < 128
        {
            self.used_cells[cell] = true;
            self.process_mut(parent).exits.push_front(Exit { cell, pid, message });
            if self.on_waitr[parent] {
                self.on_waitr[parent] = false;
                self.ready.push_back(parent);
            }
        }
    }

    /// Queues a timer before the first with a later deadline.
    pub fn queue(&mut self, timer: usize, deadline: u64) {
        self.unqueue(timer);
        let at = self.timers.iter().position(|&(_, other)| other > deadline);
        self.timers.insert(at.unwrap_or(self.timers.len()), (timer, deadline));
    }

    pub fn unqueue(&mut self, timer: usize) {
        if let Some(at) = self.timers.iter().position(|&(t, _)| t == timer) {
            self.timers.remove(at);
        }
    }

    /// Timer 0 starts.
    pub fn clock(&mut self) {
        self.queue(0, self.last_now + self.settings[0].period);
    }

    /// Sets a kernel timer other than timer 0.
    pub fn tadd(&mut self, timer: usize, counts: u64, is_periodic: bool, rendez: usize) {
        self.settings[timer] = Setting { period: if is_periodic { counts } else { 0 }, rendez };
        self.queue(timer, self.last_now + counts);
    }

    /// Time goes on, and timers fire, at most `most` of them.
    pub fn interrupt(&mut self, now: u64, most: usize) {
        self.last_now = now.clamp(self.last_now, LAST_TIME);
        for _ in 0..most {
            match self.timers.front() {
                Some(&(timer, deadline)) if deadline <= self.last_now => self.fire(timer, deadline),
                _ => return,
            }
        }
    }

    fn fire(&mut self, timer: usize, deadline: u64) {
        self.timers.pop_front();
        if timer == 0 {
            self.ticks += 1;
        } else if timer < self.z.k {
            self.wakeup(self.settings[timer].rendez);
        } else if let Call::Tsleep { rendez, .. } = self.process(timer - self.z.k).call {
            self.wakeup(rendez);
        }
        if timer < self.z.k && self.settings[timer].period > 0 {
            self.queue(timer, deadline + self.settings[timer].period);
        }
    }
}
