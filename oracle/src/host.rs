//! The host as an architecture for r9's process code, with real context
//! switches.  Three sorts of context run in turn on one thread:
//!
//! - the driver, on the thread's own stack, which reads the steps;
//! - the scheduler, in r9's `schedule`, on a stack of its own;
//! - each process, on its kernel stack.
//!
//! The driver resumes the scheduler or the running process.  The scheduler
//! gives control back at the end of its masked stretch, when it restores the
//! IRQs; a process, when it waits for its next command.

use crate::dat::{Access, MMU, Perm, Proc, ProcArch, PutError, RunQueue, UserRegs, UserSegment};
use crate::mcslock::Lock;
use crate::mem::{PAGE_SIZE_4K, PhysAddr, VirtRange};
use crate::pagealloc::PageAllocError;
use crate::parse::Step;
use crate::perform::{self, Answer};
use crate::{clock, irq, proc, segment, straight};
use std::cell::{Cell, RefCell, UnsafeCell};
use std::ptr;
use std::sync::atomic::AtomicUsize;

#[cfg(not(all(target_arch = "x86_64", unix)))]
compile_error!("the oracle's context switch is for x86_64 on Unix only");

pub struct Host;

/// A static of the oracle's only thread.
pub struct Single<T>(pub T);

// SAFETY: the oracle has one thread.
unsafe impl<T> Sync for Single<T> {}

/// A saved context: its stack pointer, with the registers on the stack.
#[repr(C)]
pub struct Label(*mut u8);

type Saved = Single<UnsafeCell<Label>>;

const fn no_label() -> Saved {
    Single(UnsafeCell::new(Label(ptr::null_mut())))
}

/// The scheduler's context while a process runs: Plan 9's m->sched.
static SCHED: Saved = no_label();
/// The driver's context while another runs.
static DRIVER: Saved = no_label();
/// The scheduler's context while it is stopped.
static STOPPED: Saved = no_label();
/// The running process's context while it waits for a command.
static WAITING: Saved = no_label();

#[derive(Clone, Copy, PartialEq)]
enum Context {
    Driver,
    Scheduler,
    Process,
}

/// Which context runs.
static CONTEXT: Single<Cell<Context>> = Single(Cell::new(Context::Driver));
/// Whether IRQs are masked.
static MASKED: Single<Cell<bool>> = Single(Cell::new(false));
/// The nesting of interrupts.
static DEPTH: AtomicUsize = AtomicUsize::new(0);

static UP: Single<Cell<*mut Proc<Host>>> = Single(Cell::new(ptr::null_mut()));
static RUN_QUEUE: Lock<RunQueue<Host>> = Lock::new("run queue", RunQueue::new());
static ADDRESS_SPACE: Single<Cell<*const Pages>> = Single(Cell::new(ptr::null()));

/// What the scheduler did since the driver resumed it.
#[derive(Default)]
pub struct Turn {
    /// The process it dispatched, as its pid.
    pub dispatched: Option<u64>,
    /// Whether it waited for an interrupt.
    pub idle: bool,
    /// What `schedule` returned, once it has.
    pub ended: Option<Vec<(u64, Vec<u8>)>>,
}

static TURN: Single<RefCell<Turn>> =
    Single(RefCell::new(Turn { dispatched: None, idle: false, ended: None }));

/// The command for the running process, and the answer to its last one.
static COMMAND: Single<RefCell<Option<(bool, Step)>>> = Single(RefCell::new(None));
static REPLY: Single<RefCell<Option<Answer>>> = Single(RefCell::new(None));

/// The process waits for a command (its last one's answer, if it had one), or
/// is switched out.
pub enum Ended {
    Waits(Option<Answer>),
    SwitchedOut,
}

/// The counter's reading and frequency.
pub static NOW: Single<Cell<u64>> = Single(Cell::new(0));
pub static HZ: Single<Cell<u64>> = Single(Cell::new(1));
/// How many 'probably stuck' lines were printed.
pub static STUCK: Single<Cell<u64>> = Single(Cell::new(0));
/// Whether there is no room for an address space, or a stack.
pub static NO_SPACE: Single<Cell<bool>> = Single(Cell::new(false));
pub static NO_STACK: Single<Cell<bool>> = Single(Cell::new(false));

static IRQ_OPS: irq::Ops = irq::Ops { mask, restore, depth: || &DEPTH };
static CLOCK_OPS: clock::Ops =
    clock::Ops { now: || NOW.0.get(), frequency: || HZ.0.get(), set_timer: |_| {} };
static CURRENT: proc::Current = proc::Current::of::<Host>();

/// Register the host with r9's code, and make the scheduler's context.
pub fn init(hz: u64) {
    HZ.0.set(hz);
    irq::init(&IRQ_OPS);
    clock::init(&CLOCK_OPS);
    proc::init_current(&CURRENT);
    let stack = Box::leak(Box::new(Stack::new()));
    // SAFETY: nothing runs but the driver.
    unsafe { *STOPPED.0.get() = Host::new_context(scheduler, stack) };
}

fn mask() -> irq::Saved {
    irq::Saved(MASKED.0.replace(true) as u64)
}

/// Restore the IRQs.  Where the scheduler opens them, its turn is over.
fn restore(saved: irq::Saved) {
    MASKED.0.set(saved.0 != 0);
    if saved.0 == 0 && CONTEXT.0.get() == Context::Scheduler {
        CONTEXT.0.set(Context::Driver);
        match next_turn() {
            true => CONTEXT.0.set(Context::Scheduler),
            false => to_driver(&STOPPED),
        }
    }
}

/// Take a script's steps up to the next turn of the scheduler; false where
/// there is none.
fn next_turn() -> bool {
    loop {
        match straight::next() {
            None => return false,
            Some(Step::Sched) => return true,
            Some(step) => straight::perform(step),
        }
    }
}

/// The scheduler's context: `schedule`, again whenever it has returned.
extern "C" fn scheduler() -> ! {
    loop {
        let exits = proc::schedule::<Host>();
        TURN.0.borrow_mut().ended = Some(exits);
        to_driver(&STOPPED);
    }
}

/// Switch to the driver until it resumes this context.
fn to_driver(save: &'static Saved) {
    CONTEXT.0.set(Context::Driver);
    // SAFETY: the driver saved its context when it resumed this one.
    unsafe { switch(save.0.get(), DRIVER.0.get()) };
}

fn from_driver(next: &'static Saved, context: Context) {
    assert!(CONTEXT.0.get() == Context::Driver, "only the driver resumes");
    CONTEXT.0.set(context);
    // SAFETY: the context was saved by to_driver, or made by init.
    unsafe { switch(DRIVER.0.get(), next.0.get()) };
}

/// Resume the scheduler until it opens the IRQs, or a process it dispatched
/// waits for a command.
pub fn resume_scheduler() -> (Turn, Ended) {
    *TURN.0.borrow_mut() = Turn::default();
    from_driver(&STOPPED, Context::Scheduler);
    (TURN.0.take(), ended())
}

/// Give the running process a command, and resume it.
pub fn resume_process(marked: bool, step: Step) -> Ended {
    *COMMAND.0.borrow_mut() = Some((marked, step));
    from_driver(&WAITING, Context::Process);
    ended()
}

/// Run the script to its end.
pub fn run_script() {
    if !Host::up().is_null() {
        from_driver(&WAITING, Context::Process);
    } else if next_turn() {
        from_driver(&STOPPED, Context::Scheduler);
    }
}

fn ended() -> Ended {
    if Host::up().is_null() { Ended::SwitchedOut } else { Ended::Waits(REPLY.0.take()) }
}

/// The start function of a process: load its program, one page, and run it.
pub fn program() {
    if straight::is_bare() {
        obey();
    }
    let range = VirtRange::new(Host::UTZERO, Host::UTZERO + PAGE_SIZE_4K);
    segment::map_zeroed::<Host>(range).expect("a page for the program");
    segment::set_segments::<Host>(vec![UserSegment { range, perm: Perm::Data }]);
    obey()
}

extern "C" fn forked() -> ! {
    obey()
}

/// A process in user mode: each command is a system call, which runs with
/// IRQs masked.
fn obey() -> ! {
    loop {
        MASKED.0.set(false);
        while let Some(step) = straight::next() {
            irq::masked(|| straight::perform(step));
        }
        to_driver(&WAITING);
        let Some((marked, step)) = COMMAND.0.take() else { continue };
        let answer = irq::masked(|| perform::marked(marked, step));
        *REPLY.0.borrow_mut() = Some(answer);
    }
}

/// A user address space: pages by address.
pub type Pages = RefCell<Vec<(usize, PhysAddr)>>;

fn address_space() -> &'static Pages {
    // SAFETY: switch set it to the address space of a living process.
    unsafe { ADDRESS_SPACE.0.get().as_ref() }.expect("no address space is switched in")
}

/// The page mapped at `va` in the current address space.
pub fn page_at(va: usize) -> Option<PhysAddr> {
    let start = va - va % PAGE_SIZE_4K;
    address_space().borrow().iter().find(|page| page.0 == start).map(|page| page.1)
}

impl MMU for Host {
    type Pmmu = Box<Pages>;
    const UADDRTOP: usize = 1 << 32;
    const UTZERO: usize = 1 << 20;
    const USTKTOP: usize = 1 << 32;
    const USTKSIZE: usize = 1 << 20;

    fn newpmmu() -> Result<Box<Pages>, PageAllocError> {
        if NO_SPACE.0.get() {
            return Err(PageAllocError::OutOfSpace);
        }
        Ok(Box::default())
    }

    fn user_page_ok(va: usize, _: Access) -> bool {
        page_at(va).is_some()
    }

    fn put(va: usize, pa: PhysAddr, _: Perm) -> Result<(), PutError> {
        if page_at(va).is_some() {
            return Err(PutError::AlreadyMapped);
        }
        address_space().borrow_mut().push((va, pa));
        Ok(())
    }

    fn unput(va: usize) -> Option<PhysAddr> {
        let page = page_at(va)?;
        address_space().borrow_mut().retain(|mapped| mapped.1 != page);
        Some(page)
    }

    fn kmap<R>(pa: PhysAddr, f: impl FnOnce(*mut u8) -> R) -> R {
        f(pa.0 as *mut u8)
    }

    fn flush() {}
    fn flushva(_: *const ()) {}

    unsafe fn switch(pmmu: &Box<Pages>) {
        ADDRESS_SPACE.0.set(&raw const **pmmu);
    }

    unsafe fn release(pmmu: Box<Pages>, free_leaf: impl FnMut(PhysAddr)) {
        pmmu.take().into_iter().map(|page| page.1).for_each(free_leaf);
    }
}

/// A kernel stack, in 16-byte units, so that its top is aligned.
pub struct Stack(Box<[std::mem::MaybeUninit<u128>]>);

const STACK_BYTES: usize = 64 * 1024;

/// Stacks given back, for processes to come.
static SPARE: Single<RefCell<Vec<Stack>>> = Single(RefCell::new(Vec::new()));

impl Stack {
    fn new() -> Stack {
        let spare = SPARE.0.borrow_mut().pop();
        spare.unwrap_or_else(|| Stack(Box::new_uninit_slice(STACK_BYTES / 16)))
    }

    fn top(&self) -> *mut u8 {
        self.0.as_ptr_range().end as *mut u8
    }
}

impl ProcArch for Host {
    type Label = Label;
    type KStack = Stack;
    type Fp = ();

    fn kstack_alloc() -> Result<Stack, PageAllocError> {
        if NO_STACK.0.get() {
            return Err(PageAllocError::OutOfSpace);
        }
        Ok(Stack::new())
    }

    unsafe fn kstack_free(stack: Stack) {
        SPARE.0.borrow_mut().push(stack);
    }

    /// The frame that `switch` pops: six registers, then `entry` as the
    /// address to return to, and below the top a null return address.
    fn new_context(entry: extern "C" fn() -> !, stack: &Stack) -> Label {
        let frame = stack.top().cast::<usize>().wrapping_sub(8);
        // SAFETY: the eight words lie inside the stack, which nothing uses.
        unsafe {
            ptr::write_bytes(frame, 0, 8);
            *frame.add(6) = entry as usize;
        }
        Label(frame.cast())
    }

    fn fork_context(_: &Stack, child: &Stack) -> Label {
        Host::new_context(forked, child)
    }

    unsafe fn enter_user(_: &UserRegs) -> ! {
        unreachable!("no step execs")
    }

    unsafe fn swtch(save: *mut Label, next: *const Label) {
        let to_scheduler = ptr::eq(next, SCHED.0.get());
        CONTEXT.0.set(if to_scheduler { Context::Scheduler } else { Context::Process });
        // SAFETY: the caller's guarantee.
        unsafe { switch(save, next) };
    }

    fn up() -> *mut Proc<Host> {
        UP.0.get()
    }

    // The signature is r9's.
    #[allow(clippy::not_unsafe_ptr_arg_deref)]
    fn set_up(p: *mut Proc<Host>) {
        UP.0.set(p);
        // SAFETY: p is null, or the process being dispatched.
        if let Some(p) = unsafe { p.as_ref() } {
            TURN.0.borrow_mut().dispatched = Some(p.pid);
        }
    }

    fn sched() -> *mut Label {
        SCHED.0.get()
    }

    fn fp_save(_: &mut ()) {}
    fn fp_restore(_: &()) {}

    fn idle() {
        TURN.0.borrow_mut().idle = true;
    }

    fn run_queue() -> &'static Lock<RunQueue<Host>> {
        &RUN_QUEUE
    }
}

/// Save the registers that a call keeps and the stack pointer in `save`, and
/// resume `next`.
///
/// # Safety
///
/// `save` is valid for writes, and `next` was saved here or made by
/// new_context, on a stack that is alive.
#[unsafe(naked)]
unsafe extern "C" fn switch(save: *mut Label, next: *const Label) {
    core::arch::naked_asm!(
        "push rbp",
        "push rbx",
        "push r12",
        "push r13",
        "push r14",
        "push r15",
        "mov [rdi], rsp",
        "mov rsp, [rsi]",
        "pop r15",
        "pop r14",
        "pop r13",
        "pop r12",
        "pop rbx",
        "pop rbp",
        "ret",
    )
}
