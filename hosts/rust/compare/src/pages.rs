//! Memory pages between pages that cannot be touched: any access there, a read as well as a write, ends
//! the process on every machine, also one from inside the archive. Linux on x86-64.

use std::ffi::{c_int, c_void};

pub const PAGE: usize = 4096;
/// So many bytes before and after the pages cannot be touched: more than any index into a heap that is
/// wrong by a factor of 16.
const FENCE: usize = 1 << 20;

const PROT_NONE: c_int = 0;
const PROT_READ_AND_WRITE: c_int = 1 | 2;
const MAP_PRIVATE_ANONYMOUS: c_int = 0x02 | 0x20;

extern "C" {
    fn mmap(
        address: *mut c_void,
        length: usize,
        protection: c_int,
        flags: c_int,
        file: c_int,
        offset: i64,
    ) -> *mut c_void;
    fn mprotect(address: *mut c_void, length: usize, protection: c_int) -> c_int;
}

/// New pages of so many bytes in all, a multiple of the page size. They stay mapped.
pub fn map(length: usize) -> &'static mut [u8] {
    // Nothing else has this memory, and only the part between the fences becomes a slice.
    unsafe {
        let nowhere = std::ptr::null_mut();
        let all = mmap(nowhere, length + 2 * FENCE, PROT_NONE, MAP_PRIVATE_ANONYMOUS, -1, 0);
        assert_ne!(all as isize, -1, "the system maps no pages");
        let pages = all.byte_add(FENCE);
        assert_eq!(mprotect(pages, length, PROT_READ_AND_WRITE), 0, "the pages stay closed");
        std::slice::from_raw_parts_mut(pages.cast(), length)
    }
}
