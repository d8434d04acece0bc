//! A file mapped into memory, only to be read: one of 2 GiB with hardly a byte in it takes hardly any memory, and a write to it would stop the program.
#![allow(unsafe_code)]
use std::ffi::{c_int, c_void};
use std::fs::File;
use std::io;
use std::os::fd::AsRawFd;

extern "C" {
    fn mmap(at: *mut c_void, length: usize, protection: c_int, flags: c_int, file: c_int, offset: i64) -> *mut c_void;
    fn munmap(at: *mut c_void, length: usize) -> c_int;
}

/// As Linux has them.
const PROT_READ: c_int = 1;
const MAP_PRIVATE: c_int = 2;

pub struct Mapped {
    start: *mut c_void,
    length: usize,
}

impl Mapped {
    /// The whole of a file that is not empty.
    pub fn of(file: &File) -> io::Result<Mapped> {
        let length = usize::try_from(file.metadata()?.len()).map_err(io::Error::other)?;
        // SAFETY: a new mapping at an address that the system chooses; what is wrong with the arguments is answered as an error.
        let start = unsafe { mmap(std::ptr::null_mut(), length, PROT_READ, MAP_PRIVATE, file.as_raw_fd(), 0) };
        if start.addr() == usize::MAX {
            return Err(io::Error::last_os_error());
        }
        Ok(Mapped { start, length })
    }

    pub fn bytes(&self) -> &[u8] {
        // SAFETY: the mapping lives as long as self, has that length, can be read, and nobody else knows the file.
        unsafe { std::slice::from_raw_parts(self.start.cast(), self.length) }
    }
}

impl Drop for Mapped {
    fn drop(&mut self) {
        // SAFETY: the mapping is this one's own, and no reference to it is left.
        unsafe { munmap(self.start, self.length) };
    }
}
