//! The functions under test.  A slice passes as a pointer and a length.

unsafe extern "C" {
    #[link_name = "size"]
    fn c_size(p: u64, r: u64, q: u64, k: u64, c: u64) -> u64;
    #[link_name = "make"]
    fn c_make(s: *mut u8, n: usize, p: u64, r: u64, q: u64, k: u64, c: u64, hz: u64) -> u64;
}

#[cfg(has_check)]
unsafe extern "C" {
    // A C bool comes back in one byte; taken as a number, so that any other than 0 and 1 shows.
    #[link_name = "check"]
    fn c_check(s: *const u8, n: usize) -> u8;
}

/// Is `check` linked?
pub const HAS_CHECK: bool = cfg!(has_check);

pub fn size(n: [u64; 5]) -> u64 {
    unsafe { c_size(n[0], n[1], n[2], n[3], n[4]) }
}

pub fn make(s: &mut [u8], n: [u64; 5], hz: u64) -> u64 {
    unsafe { c_make(s.as_mut_ptr(), s.len(), n[0], n[1], n[2], n[3], n[4], hz) }
}

/// The answer of `check`, or none where it is not linked.  The slice is lent
/// as one that might be written, so that the caller sees it if it was.
#[cfg(has_check)]
pub fn check(s: &mut [u8]) -> Option<u8> {
    Some(unsafe { c_check(s.as_mut_ptr(), s.len()) })
}

#[cfg(not(has_check))]
pub fn check(_: &mut [u8]) -> Option<u8> {
    None
}
