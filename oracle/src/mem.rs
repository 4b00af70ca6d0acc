//! Addresses.  A physical page is a page of the host's heap.

use std::fmt;

pub const PAGE_SIZE_4K: usize = 4096;

/// The address of a page in the host's memory.
#[derive(Clone, Copy, Debug, PartialEq)]
pub struct PhysAddr(pub usize);

#[derive(Clone, Copy, Debug, PartialEq)]
pub struct VirtRange {
    pub start: usize,
    pub end: usize,
}

impl VirtRange {
    pub const fn new(start: usize, end: usize) -> VirtRange {
        VirtRange { start, end }
    }
}

impl fmt::Display for VirtRange {
    fn fmt(&self, f: &mut fmt::Formatter) -> fmt::Result {
        write!(f, "{:#x}..{:#x}", self.start, self.end)
    }
}
