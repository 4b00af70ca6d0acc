//! Pages from the host's heap, which run out on demand (M = 3).

use crate::mem::{PAGE_SIZE_4K, PhysAddr};
use std::alloc::{Layout, alloc_zeroed, dealloc};
use std::sync::atomic::{AtomicBool, AtomicUsize, Ordering};

#[derive(Clone, Copy, Debug, PartialEq)]
pub enum PageAllocError {
    OutOfSpace,
}

/// Whether pages have run out.
pub static NO_PAGES: AtomicBool = AtomicBool::new(false);

static USED: AtomicUsize = AtomicUsize::new(0);
const LAYOUT: Layout = match Layout::from_size_align(PAGE_SIZE_4K, PAGE_SIZE_4K) {
    Ok(layout) => layout,
    Err(_) => panic!("no layout for a page"),
};

pub fn allocate_physpage() -> Result<PhysAddr, PageAllocError> {
    if NO_PAGES.load(Ordering::Relaxed) {
        return Err(PageAllocError::OutOfSpace);
    }
    // SAFETY: the layout's size is not 0.
    let page = unsafe { alloc_zeroed(LAYOUT) };
    assert!(!page.is_null(), "the host has no memory for a page");
    USED.fetch_add(1, Ordering::Relaxed);
    Ok(PhysAddr(page as usize))
}

pub fn free_physpage(page: PhysAddr) -> Result<(), PageAllocError> {
    USED.fetch_sub(1, Ordering::Relaxed);
    // SAFETY: the page is from allocate_physpage, and its owner gives it up.
    unsafe { dealloc(page.0 as *mut u8, LAYOUT) };
    Ok(())
}

/// The bytes in use, and the bytes there are.
pub fn usage_bytes() -> (usize, usize) {
    (USED.load(Ordering::Relaxed) * PAGE_SIZE_4K, usize::MAX)
}
