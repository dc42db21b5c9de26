//! An interrupt (Ctrl-C) as the wish to end: what came before it is then told. std has no signals, so C's are declared here.

use std::io::{self, ErrorKind, Read};

/// Reads up to an interrupt, which ends the input.
pub struct UntilInterrupt<R>(pub R);

impl<R: Read> Read for UntilInterrupt<R> {
    fn read(&mut self, bytes: &mut [u8]) -> io::Result<usize> {
        while !came() {
            match self.0.read(bytes) {
                Err(error) if error.kind() == ErrorKind::Interrupted => (),
                done => return done,
            }
        }
        Ok(0)
    }
}

#[cfg(unix)]
pub use unix::{came, watch};

#[cfg(unix)]
#[allow(unsafe_code)]
mod unix {
    use std::sync::atomic::{AtomicBool, Ordering};

    const SIGINT: i32 = 2;
    const DEFAULT: usize = 0;

    static CAME: AtomicBool = AtomicBool::new(false);

    extern "C" {
        fn signal(number: i32, handler: usize) -> usize;
        fn siginterrupt(number: i32, flag: i32) -> i32;
    }

    extern "C" fn note(_number: i32) {
        CAME.store(true, Ordering::Relaxed);
        // A second interrupt ends the program, should the first not.
        // SAFETY: a handler may call `signal`, and the default takes no function.
        unsafe { signal(SIGINT, DEFAULT) };
    }

    /// From here on an interrupt is noted, and ends a read that waits.
    pub fn watch() {
        let handler: extern "C" fn(i32) = note;
        // SAFETY: the handler stores to an atomic and calls `signal`, which handlers may do; both functions are C's, with these types.
        unsafe {
            signal(SIGINT, handler as usize);
            siginterrupt(SIGINT, 1);
        }
    }

    pub fn came() -> bool {
        CAME.load(Ordering::Relaxed)
    }
}

#[cfg(not(unix))]
pub fn watch() {}

#[cfg(not(unix))]
pub fn came() -> bool {
    false
}
