//! The function under test.  A slice passes as a pointer and a length.

unsafe extern "C" {
    #[link_name = "exit_message"]
    fn c_exit_message(
        cell: *mut u8,
        cell_len: usize,
        name: *const u8,
        name_len: usize,
        pid: u64,
        status: *const u8,
        status_len: usize,
    ) -> u64;
}

pub fn exit_message(cell: &mut [u8], name: &[u8], pid: u64, status: &[u8]) -> u64 {
    let (cell, cell_len) = (cell.as_mut_ptr(), cell.len());
    let (name, name_len) = (name.as_ptr(), name.len());
    // SAFETY: the three slices are alive and apart, and the function is proved to stay inside them.
    unsafe { c_exit_message(cell, cell_len, name, name_len, pid, status.as_ptr(), status.len()) }
}
