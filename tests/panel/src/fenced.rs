//! Bytes with a page behind them, or before them, that may not be touched: a
//! read or a write beyond them ends the process.

use std::ffi::c_void;
use std::ptr;

extern "C" {
    fn mmap(
        at: *mut c_void,
        length: usize,
        may: i32,
        kind: i32,
        file: i32,
        from: i64,
    ) -> *mut c_void;
    fn mprotect(at: *mut c_void, length: usize, may: i32) -> i32;
    fn munmap(at: *mut c_void, length: usize) -> i32;
}

/// What Linux calls PROT_NONE, PROT_READ and PROT_WRITE, MAP_PRIVATE and
/// MAP_ANONYMOUS.
const NOTHING: i32 = 0;
const READ_AND_WRITE: i32 = 1 | 2;
const OF_ITS_OWN: i32 = 2 | 32;

/// At least the size of a page.
const PAGE: usize = 65_536;

/// On which side the bytes meet the page that may not be touched.
#[derive(Clone, Copy)]
pub enum Fence {
    Before,
    Behind,
}

pub struct Fenced {
    whole: *mut u8,
    size: usize,
    start: *mut u8,
    length: usize,
}

impl Fenced {
    pub fn new(bytes: &[u8], fence: Fence) -> Self {
        let length = bytes.len();
        let room = length.div_ceil(PAGE).max(1) * PAGE;
        let size = room + 2 * PAGE;
        // SAFETY: the memory is new, and no more of it is opened than it has.
        unsafe {
            let whole = mmap(ptr::null_mut(), size, NOTHING, OF_ITS_OWN, -1, 0);
            assert_ne!(whole as isize, -1, "no memory");
            let inside = whole.cast::<u8>().add(PAGE);
            assert_eq!(mprotect(inside.cast(), room, READ_AND_WRITE), 0);
            let start = match fence {
                Fence::Before => inside,
                Fence::Behind => inside.add(room - length),
            };
            ptr::copy_nonoverlapping(bytes.as_ptr(), start, length);
            let whole = whole.cast();
            Fenced {
                whole,
                size,
                start,
                length,
            }
        }
    }

    pub fn bytes(&self) -> &[u8] {
        // SAFETY: they lie in the opened part, and were written.
        unsafe { std::slice::from_raw_parts(self.start, self.length) }
    }

    pub fn lent(&mut self) -> (*mut u8, usize) {
        (self.start, self.length)
    }
}

impl Drop for Fenced {
    fn drop(&mut self) {
        // SAFETY: it was mapped with that size, and nobody has it any more.
        unsafe { munmap(self.whole.cast(), self.size) };
    }
}
