//! How far a long replay is, for a person who waits at a terminal.

use std::io::{self, Write};
use std::time::{Duration, Instant};

/// Captures under this size are done before anyone wonders.
const LARGE: u64 = 4 << 20;

const PAUSE: Duration = Duration::from_millis(200);

pub struct Progress {
    /// The capture's size, or 0 where nothing is to be shown.
    size: u64,
    last: Instant,
    shown: bool,
}

impl Progress {
    /// Shown only where the lines of the replay do not go to the same terminal.
    pub fn new(size: u64, quiet: bool) -> Progress {
        let watched = is_terminal("/dev/stderr") && (quiet || !is_terminal("/dev/stdout"));
        let size = if size >= LARGE && watched { size } else { 0 };
        Progress { size, last: Instant::now(), shown: false }
    }

    pub fn at(&mut self, offset: u64) {
        if self.size == 0 || self.last.elapsed() < PAUSE {
            return;
        }
        self.last = Instant::now();
        self.shown = true;
        let percent = offset.saturating_mul(100) / self.size;
        // Progress that cannot be shown is no reason to stop.
        let _ = write!(io::stderr(), "\r{:3} % of the capture", percent.min(100));
    }

    pub fn finish(&self) {
        if self.shown {
            let _ = write!(io::stderr(), "\r{:24}\r", "");
        }
    }
}

/// Is an output a terminal? A character device is taken for one: what else is, drops what it is given.
#[cfg(unix)]
fn is_terminal(output: &str) -> bool {
    use std::os::unix::fs::FileTypeExt;
    std::fs::metadata(output).map_or(false, |found| found.file_type().is_char_device())
}

#[cfg(not(unix))]
fn is_terminal(_output: &str) -> bool {
    false
}
