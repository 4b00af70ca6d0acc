//! User memory, read through the current address space.

use crate::dat::{Access, MMU};
use crate::host;

/// Copy the bytes at `va` of the current address space into `to`.
pub fn copy_from_user<A: MMU>(to: &mut [u8], va: usize) {
    assert!(A::user_page_ok(va, Access::Read), "copy_from_user: nothing at {va:#x}");
    let page = host::page_at(va).expect("copy_from_user: no page");
    // SAFETY: the page is mapped, so it is alive, and `to` is another page.
    let from = unsafe { std::slice::from_raw_parts(page.0 as *const u8, to.len()) };
    to.copy_from_slice(from);
}
