//! What the plain Rust versions have in common.
use std::os::raw::{c_int, c_void};

unsafe extern "C" {
    fn memchr(bytes: *const c_void, byte: c_int, len: usize) -> *const c_void;
}

/// The first place of a byte, by the C library's search.
pub fn find(byte: u8, bytes: &[u8]) -> Option<usize> {
    let found = unsafe { memchr(bytes.as_ptr().cast(), byte.into(), bytes.len()) };
    if found.is_null() {
        None
    } else {
        Some(found as usize - bytes.as_ptr() as usize)
    }
}

/// What is taken of a line: its length, and its first and last byte.
pub fn line_value(line: &[u8]) -> u64 {
    match line {
        [first, .., last] => line.len() as u64 + u64::from(*first) + u64::from(*last),
        _ => 0,
    }
}
