//! r9's MCS lock, on one CPU and one thread: taking a held lock would wait
//! for ever, so it is a fault.

use crate::irq;
use std::cell::{Cell, UnsafeCell};
use std::ops::{Deref, DerefMut};

pub struct Lock<T> {
    name: &'static str,
    held: Cell<bool>,
    value: UnsafeCell<T>,
}

// SAFETY: the oracle has one thread.
unsafe impl<T> Sync for Lock<T> {}

/// The place of a waiter in the lock's queue; nobody waits here.
pub struct LockNode;

impl LockNode {
    pub const fn new() -> LockNode {
        LockNode
    }
}

impl<T> Lock<T> {
    pub const fn new(name: &'static str, value: T) -> Lock<T> {
        Lock { name, held: Cell::new(false), value: UnsafeCell::new(value) }
    }

    /// Take the lock.
    pub fn lock<'a>(&'a self, _: &'a LockNode) -> Guard<'a, T> {
        self.take(None)
    }

    /// Mask IRQs and take the lock; both are undone when the guard goes.
    pub fn ilock<'a>(&'a self, _: &'a LockNode) -> Guard<'a, T> {
        self.take(Some(irq::mask()))
    }

    /// Look at the value, as nobody holds the lock: IRQs stay as they are.
    #[inline]
    pub fn look<R>(&self, look: impl FnOnce(&T) -> R) -> R {
        assert!(!self.held.get(), "lock {} is held", self.name);
        // SAFETY: the oracle has one thread, and `look` takes no lock of r9's.
        look(unsafe { &*self.value.get() })
    }

    fn take(&self, saved: Option<Option<irq::Saved>>) -> Guard<'_, T> {
        assert!(!self.held.replace(true), "lock {} is taken twice", self.name);
        Guard { lock: self, saved }
    }
}

pub struct Guard<'a, T> {
    lock: &'a Lock<T>,
    saved: Option<Option<irq::Saved>>,
}

impl<T> Deref for Guard<'_, T> {
    type Target = T;
    fn deref(&self) -> &T {
        // SAFETY: the guard holds the lock.
        unsafe { &*self.lock.value.get() }
    }
}

impl<T> DerefMut for Guard<'_, T> {
    fn deref_mut(&mut self) -> &mut T {
        // SAFETY: the guard holds the lock.
        unsafe { &mut *self.lock.value.get() }
    }
}

impl<T> Drop for Guard<'_, T> {
    fn drop(&mut self) {
        self.lock.held.set(false);
        if let Some(saved) = self.saved {
            irq::restore(saved);
        }
    }
}
