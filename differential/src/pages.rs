//! Memory that can be made read-only while a call runs: a write there is then
//! found whatever it writes, and at the cost of no comparison.

use std::ffi::{c_int, c_void};
use std::io::Error;
use std::ops::{Deref, DerefMut};
use std::sync::Once;
use std::sync::atomic::{AtomicUsize, Ordering::Relaxed};
use std::{ptr, slice};

#[cfg(not(all(target_arch = "x86_64", target_os = "linux")))]
compile_error!("these numbers and layouts are those of Linux on x86_64");

const READ: c_int = 1;
const READ_WRITE: c_int = 3;
const PRIVATE_ANONYMOUS: c_int = 0x22;
const HUGE_PAGES: c_int = 14;
const SIGSEGV: c_int = 11;
const WITH_INFO: c_int = 4;
const DEFAULT: usize = 0;

#[repr(C)]
struct Action {
    handler: extern "C" fn(c_int, *const Info, *mut c_void),
    mask: [u64; 16],
    flags: c_int,
    restorer: usize,
}

/// What the kernel tells of a fault.
#[repr(C)]
struct Info {
    numbers: [c_int; 4],
    address: usize,
}

unsafe extern "C" {
    fn mmap(at: *mut u8, n: usize, prot: c_int, flags: c_int, fd: c_int, from: i64) -> *mut u8;
    fn munmap(at: *mut u8, n: usize) -> c_int;
    fn madvise(at: *mut u8, n: usize, advice: c_int) -> c_int;
    fn mprotect(at: *mut u8, n: usize, prot: c_int) -> c_int;
    fn sigaction(signal: c_int, new: *const Action, old: *mut Action) -> c_int;
    fn signal(signal: c_int, handler: usize) -> usize;
}

/// The memory that is read-only now, and the first address of it that was
/// written, or 0.
static START: AtomicUsize = AtomicUsize::new(0);
static LENGTH: AtomicUsize = AtomicUsize::new(0);
static WRITTEN: AtomicUsize = AtomicUsize::new(0);

/// Keep where the write went, and let it be done.  Any other fault ends the
/// program as it would without this.
extern "C" fn fault(_: c_int, info: *const Info, _: *mut c_void) {
    // SAFETY: the kernel lends what it tells.
    let address = unsafe { (*info).address };
    let (start, length) = (START.load(Relaxed), LENGTH.load(Relaxed));
    if address.wrapping_sub(start) < length {
        WRITTEN.store(address, Relaxed);
        // SAFETY: the memory is that of a Pages, which `read_only` borrows.
        unsafe { mprotect(start as *mut u8, length, READ_WRITE) };
    } else {
        // SAFETY: the fault comes again, and ends the program.
        unsafe { signal(SIGSEGV, DEFAULT) };
    }
}

fn watch_faults() {
    let action = Action { handler: fault, mask: [0; 16], flags: WITH_INFO, restorer: 0 };
    // SAFETY: the handler has the form that the flags say.
    let set = unsafe { sigaction(SIGSEGV, &action, ptr::null_mut()) };
    assert!(set == 0, "sigaction: {}", Error::last_os_error());
}

/// Memory of its own pages.
pub struct Pages {
    start: *mut u8,
    length: usize,
}

impl Pages {
    /// Zeros.
    pub fn new(length: usize) -> Pages {
        static WATCH: Once = Once::new();
        WATCH.call_once(watch_faults);
        // SAFETY: new memory, wherever it is.
        let start = unsafe { mmap(ptr::null_mut(), length, READ_WRITE, PRIVATE_ANONYMOUS, -1, 0) };
        assert!(start.addr() != usize::MAX, "mmap: {}", Error::last_os_error());
        // Large pages are protected sooner.  Where there are none, small ones do.
        // SAFETY: the memory is its own.
        unsafe { madvise(start, length, HUGE_PAGES) };
        Pages { start, length }
    }

    /// Do `f` with the memory read-only, then say which byte of it was written,
    /// if one was.
    pub fn read_only<T>(&mut self, f: impl FnOnce(&mut [u8]) -> T) -> (T, Option<usize>) {
        START.store(self.start.addr(), Relaxed);
        LENGTH.store(self.length, Relaxed);
        WRITTEN.store(0, Relaxed);
        self.protect(READ);
        let result = f(self);
        self.protect(READ_WRITE);
        LENGTH.store(0, Relaxed);
        (result, WRITTEN.load(Relaxed).checked_sub(self.start.addr()))
    }

    fn protect(&mut self, prot: c_int) {
        // SAFETY: the memory is its own.
        let set = unsafe { mprotect(self.start, self.length, prot) };
        assert!(set == 0, "mprotect: {}", Error::last_os_error());
    }
}

impl Drop for Pages {
    fn drop(&mut self) {
        // SAFETY: nobody has borrowed it.
        unsafe { munmap(self.start, self.length) };
    }
}

impl Deref for Pages {
    type Target = [u8];
    fn deref(&self) -> &[u8] {
        // SAFETY: the memory is its own, and can be read.
        unsafe { slice::from_raw_parts(self.start, self.length) }
    }
}

impl DerefMut for Pages {
    fn deref_mut(&mut self) -> &mut [u8] {
        // SAFETY: the memory is its own, and is borrowed once.
        unsafe { slice::from_raw_parts_mut(self.start, self.length) }
    }
}
