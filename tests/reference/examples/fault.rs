//! A library to preload: one read of standard input or one write to standard
//! output goes wrong, and the others go through.
//!
//! `FAULT` is `CALL N WITH`: the call is `read` or `write`, N counts from 1, and
//! WITH is the error's number, or `short` where half of the bytes are moved.

use std::env;
use std::ffi::c_void;
use std::sync::atomic::{AtomicU64, Ordering};

extern "C" {
    fn __read(fd: i32, bytes: *mut c_void, count: usize) -> isize;
    fn __write(fd: i32, bytes: *const c_void, count: usize) -> isize;
    fn __errno_location() -> *mut i32;
}

/// What becomes of a call.
enum Fate {
    Through,
    Short,
    Fails(i32),
}

/// The fate of the next call of this name, of which `calls` counts those before.
fn fate(name: &str, calls: &AtomicU64) -> Fate {
    let count = calls.fetch_add(1, Ordering::Relaxed) + 1;
    let fault = env::var("FAULT").unwrap_or_default();
    let words: Vec<&str> = fault.split(' ').collect();
    match words[..] {
        [call, n, with] if call == name && n.parse() == Ok(count) => {
            with.parse().map_or(Fate::Short, Fate::Fails)
        }
        _ => Fate::Through,
    }
}

fn failed(error: i32) -> isize {
    // SAFETY: the C library gives the place of the thread's own errno.
    unsafe { *__errno_location() = error };
    -1
}

/// # Safety
/// As for the C library's own.
#[no_mangle]
pub unsafe extern "C" fn read(fd: i32, bytes: *mut c_void, count: usize) -> isize {
    static CALLS: AtomicU64 = AtomicU64::new(0);
    if fd != 0 {
        return __read(fd, bytes, count);
    }
    match fate("read", &CALLS) {
        Fate::Through => __read(fd, bytes, count),
        Fate::Short => __read(fd, bytes, count.div_ceil(2)),
        Fate::Fails(error) => failed(error),
    }
}

/// # Safety
/// As for the C library's own.
#[no_mangle]
pub unsafe extern "C" fn write(fd: i32, bytes: *const c_void, count: usize) -> isize {
    static CALLS: AtomicU64 = AtomicU64::new(0);
    if fd != 1 {
        return __write(fd, bytes, count);
    }
    match fate("write", &CALLS) {
        Fate::Through => __write(fd, bytes, count),
        Fate::Short => __write(fd, bytes, count.div_ceil(2)),
        Fate::Fails(error) => failed(error),
    }
}
