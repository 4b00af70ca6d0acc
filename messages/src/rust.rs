//! The message that r9 itself makes of an exit: a child with the name and the
//! pid that are tried exits in r9's `pexit`, which calls `tell_parent`, and
//! its parent's `pwait` gives the message.

use oracle::RFPROC;
use oracle::dat::ProcArch;
use oracle::host::{self, Ended, Host};
use oracle::parse::Step;
use oracle::perform::{self, Answer};
use oracle::sizes::Sizes;

/// A process of r9's that runs, and forks a child for each message.
pub struct Parent;

impl Parent {
    pub fn new() -> Parent {
        host::init(Sizes::DEFAULT.hz);
        perform::init(&Sizes::DEFAULT);
        perform::marked(false, Step::Start { m: 0 });
        run_next();
        Parent
    }

    /// The message of a child's exit.
    pub fn message(&self, name: &[u8], pid: u64, status: &[u8]) -> Vec<u8> {
        stays(Step::Rfork { flags: RFPROC, m: 0 });
        leaves(Step::Wait);
        run_next();
        stays(Step::Name(name.to_vec()));
        // SAFETY: the child runs, and waits for its next command.
        unsafe { (*Host::up()).pid = pid };
        leaves(Step::Exit(status.to_vec()));
        match run_next() {
            Some(Answer::Child(child, message)) if child == pid => message,
            other => panic!("the parent's wait gave {other:?}"),
        }
    }
}

/// Dispatch the next process: what its last command, if it had one, answers.
fn run_next() -> Option<Answer> {
    match host::resume_scheduler().1 {
        Ended::Waits(answer) => answer,
        Ended::SwitchedOut => panic!("no process runs"),
    }
}

/// Give the running process a step after which it still runs.
fn stays(step: Step) {
    match host::resume_process(false, step) {
        Ended::Waits(Some(Answer::Pid(_) | Answer::Done)) => {}
        Ended::Waits(answer) => panic!("a step gave {answer:?}"),
        Ended::SwitchedOut => panic!("a step switched its process out"),
    }
}

/// Give the running process a step that switches it out.
fn leaves(step: Step) {
    if let Ended::Waits(answer) = host::resume_process(false, step) {
        panic!("a step gave {answer:?}");
    }
}
