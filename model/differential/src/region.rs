//! Address space for over 2^32 bytes. Only those at its start can be read and written;
//! the others have no memory, and a step to them ends the program.

use std::ffi::c_void;
use std::{ptr, slice};

unsafe extern "C" {
    fn mmap(
        at: *mut c_void,
        size: usize,
        protection: i32,
        flags: i32,
        file: i32,
        offset: i64,
    ) -> *mut c_void;
    fn mprotect(at: *mut c_void, size: usize, protection: i32) -> i32;
    fn munmap(at: *mut c_void, size: usize) -> i32;
}

/// No reading and no writing.
const NO_ACCESS: i32 = 0;

/// Reading and writing.
const READ_AND_WRITE: i32 = 1 | 2;

/// Private, of no file, no memory set aside.
const OF_NO_FILE: i32 = 0x02 | 0x20 | 0x4000;

/// Bytes of the address space.
const SIZE: usize = (1 << 32) + USED;

/// Bytes at the start that can be used.
pub const USED: usize = 16_384;

/// The address space, and where it starts.
pub struct Region(*mut u8);

impl Region {
    /// Address space that holds these bytes at its start, if the system has it.
    pub fn holding(bytes: &[u8]) -> Option<Region> {
        // Safety: a new place of its own, which is unmapped once, in `drop`.
        let at = unsafe { mmap(ptr::null_mut(), SIZE, NO_ACCESS, OF_NO_FILE, -1, 0) };
        if at.addr() == usize::MAX {
            return None;
        }
        let mut region = Region(at.cast());
        // Safety: the start of that place.
        let changed = unsafe { mprotect(at, USED, READ_AND_WRITE) };
        assert_eq!(changed, 0, "memory for {USED} bytes");
        region.used()[..bytes.len()].copy_from_slice(bytes);
        Some(region)
    }

    /// Where it starts.
    pub fn pointer(&mut self) -> *mut u8 {
        self.0
    }

    /// The bytes at its start.
    pub fn used(&mut self) -> &mut [u8] {
        // Safety: the first `USED` bytes, which can be read and written.
        unsafe { slice::from_raw_parts_mut(self.0, USED) }
    }

    /// The same, to be read.
    pub fn start(&self) -> &[u8] {
        // Safety: as above.
        unsafe { slice::from_raw_parts(self.0, USED) }
    }
}

impl Drop for Region {
    fn drop(&mut self) {
        // Safety: mapped by `holding`, and gone after this.
        unsafe { munmap(self.0.cast(), SIZE) };
    }
}

impl Clone for Region {
    fn clone(&self) -> Region {
        Region::holding(self.start()).expect("address space, as before")
    }
}

impl PartialEq for Region {
    fn eq(&self, other: &Region) -> bool {
        self.start() == other.start()
    }
}

impl Eq for Region {}
