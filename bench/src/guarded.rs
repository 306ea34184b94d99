//! Memory between two pages that may not be touched: to read a byte too far ends the program.

use std::ffi::c_void;

const PAGE: usize = 4096;
const NO_ACCESS: i32 = 0;
const READ_WRITE: i32 = 3;
const PRIVATE_ANONYMOUS: i32 = 0x22;

unsafe extern "C" {
    fn mmap(address: *mut c_void, length: usize, access: i32, flags: i32, file: i32, offset: i64) -> *mut c_void;
    fn mprotect(address: *mut c_void, length: usize, access: i32) -> i32;
}

/// Which of the two pages the bytes touch.
#[derive(Clone, Copy)]
pub enum Side {
    Low,
    High,
}

pub struct Guarded {
    room: &'static mut [u8],
}

impl Guarded {
    /// Room for `most` bytes, kept until the program ends.
    pub fn new(most: usize) -> Guarded {
        let length = most.next_multiple_of(PAGE);
        // SAFETY: a fresh mapping of Linux, all of which this function owns; only the middle is made accessible.
        let room = unsafe {
            let mapping = mmap(std::ptr::null_mut(), length + 2 * PAGE, NO_ACCESS, PRIVATE_ANONYMOUS, -1, 0);
            assert_ne!(mapping as isize, -1, "memory can be mapped");
            let middle = mapping.byte_add(PAGE);
            assert_eq!(mprotect(middle, length, READ_WRITE), 0, "the middle can be made accessible");
            std::slice::from_raw_parts_mut(middle.cast(), length)
        };
        Guarded { room }
    }

    /// The same bytes, at one of the two pages.
    pub fn hold(&mut self, bytes: &[u8], side: Side) -> &[u8] {
        let at = match side {
            Side::Low => 0,
            Side::High => self.room.len() - bytes.len(),
        };
        let held = &mut self.room[at..at + bytes.len()];
        held.copy_from_slice(bytes);
        held
    }
}
