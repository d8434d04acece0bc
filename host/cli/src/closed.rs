//! Whether standard input and standard output were closed when the program began. Rust's runtime opens /dev/null in their place before main, so this
//! is asked before the runtime begins.
use std::ffi::c_int;
use std::io;
use std::sync::atomic::{AtomicBool, Ordering};

static INPUT: AtomicBool = AtomicBool::new(false);
static OUTPUT: AtomicBool = AtomicBool::new(false);

/// Asks for the flags of a descriptor. An error means that it is closed.
const F_GETFD: c_int = 1;

extern "C" {
    fn fcntl(descriptor: c_int, command: c_int, ...) -> c_int;
}

extern "C" fn ask() {
    for (descriptor, closed) in [(0, &INPUT), (1, &OUTPUT)] {
        // SAFETY: F_GETFD takes no further argument, changes nothing, and any number may be asked.
        let flags = unsafe { fcntl(descriptor, F_GETFD) };
        closed.store(flags == -1, Ordering::Relaxed);
    }
}

/// What the C library calls before main.
#[used]
#[link_section = ".init_array"]
static BEFORE_MAIN: extern "C" fn() = ask;

pub fn input() -> bool {
    INPUT.load(Ordering::Relaxed)
}

pub fn output() -> bool {
    OUTPUT.load(Ordering::Relaxed)
}

/// What is said of either.
pub fn error() -> io::Error {
    io::Error::other("it is closed")
}
