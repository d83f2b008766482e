//! Memory that is taken from the system in pages, for lengths that no vector should have.

use std::fs::File;
use std::io::Write;
use std::os::fd::{AsRawFd, FromRawFd};

extern "C" {
    fn mmap(start: *mut u8, size: usize, protection: i32, flags: i32, file: i32, offset: i64) -> *mut u8;
    fn munmap(start: *mut u8, size: usize) -> i32;
    fn memfd_create(name: *const std::ffi::c_char, flags: u32) -> i32;
}

const READ_WRITE: i32 = 3;
const SHARED: i32 = 0x01;
const PRIVATE: i32 = 0x02;
const FIXED: i32 = 0x10;
const ANONYMOUS: i32 = 0x20;
const NORESERVE: i32 = 0x4000;

/// Pages that are given back when they are dropped.
pub struct Pages {
    start: *mut u8,
    size: usize,
}

impl Pages {
    /// Zeros; a page costs nothing until it is touched.
    pub fn zeroed(size: usize) -> Result<Self, String> {
        let start =
            unsafe { mmap(std::ptr::null_mut(), size, READ_WRITE, PRIVATE | ANONYMOUS | NORESERVE, -1, 0) };
        match start as isize {
            -1 => Err(format!("{size} bytes cannot be reserved")),
            _ => Ok(Pages { start, size }),
        }
    }

    /// The piece, whose length is a multiple of a page's, so many times one behind the other. It is held once;
    /// a page that is written becomes one of its own.
    pub fn repeated(piece: &[u8], times: usize) -> Result<Self, String> {
        Pages::mapped(piece, times, PRIVATE)
    }

    /// So many pieces of this size that are one and the same memory: what is written to one is written to all.
    pub fn folded(size: usize, times: usize) -> Result<Self, String> {
        Pages::mapped(&vec![0; size], times, SHARED)
    }

    fn mapped(piece: &[u8], times: usize, sharing: i32) -> Result<Self, String> {
        let pages = Pages::zeroed(piece.len() * times)?;
        let descriptor = unsafe { memfd_create(c"piece".as_ptr(), 0) };
        if descriptor < 0 {
            return Err("a file in memory cannot be had".to_string());
        }
        let mut file = unsafe { File::from_raw_fd(descriptor) };
        file.write_all(piece).map_err(|error| error.to_string())?;
        for place in 0..times {
            let start = unsafe { pages.start.add(place * piece.len()) };
            let mapped = unsafe { mmap(start, piece.len(), READ_WRITE, sharing | FIXED, file.as_raw_fd(), 0) };
            if mapped != start {
                return Err(format!("piece {place} cannot be mapped"));
            }
        }
        Ok(pages)
    }

    pub fn bytes(&mut self) -> &mut [u8] {
        unsafe { std::slice::from_raw_parts_mut(self.start, self.size) }
    }
}

impl Drop for Pages {
    fn drop(&mut self) {
        unsafe { munmap(self.start, self.size) };
    }
}
