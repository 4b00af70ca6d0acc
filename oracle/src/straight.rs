//! A script that processes and the scheduler take by themselves, without the
//! driver between two steps and without the guard: for measuring how fast r9's
//! own functions are.  No step of a script may be refused.

use crate::host::NOW;
use crate::host::Single;
use crate::parse::Step;
use crate::perform;
use crate::timer;
use std::cell::{Cell, RefCell};

/// The steps that are left, the last one first.
static SCRIPT: Single<RefCell<Vec<Step>>> = Single(RefCell::new(Vec::new()));
static IS_BARE: Single<Cell<bool>> = Single(Cell::new(false));

/// Whether processes have no memory of their own, which a fork would copy.
pub fn is_bare() -> bool {
    IS_BARE.0.get()
}

pub fn make_bare() {
    IS_BARE.0.set(true);
}

/// Take these from now on.
pub fn set(mut steps: Vec<Step>) {
    steps.reverse();
    *SCRIPT.0.borrow_mut() = steps;
}

/// The script's next step, if there is one.
pub fn next() -> Option<Step> {
    SCRIPT.0.borrow_mut().pop()
}

/// Perform a step other than `sched`, and leave its answer.
pub fn perform(step: Step) {
    match step {
        Step::Intr { now } => {
            NOW.0.set(now);
            timer::interrupt();
        }
        step => drop(perform::marked(false, step)),
    }
}
