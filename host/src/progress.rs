//! A run that takes longer than a second says on a terminal that it goes on: on a line of its own that is taken back before anything else
//! is said. Where the standard error is no terminal, or nothing is to be said, there is none.
use crate::QUIET;
use std::fs;
use std::io::{self, Write};
use std::sync::atomic::Ordering::Relaxed;
use std::sync::mpsc::{self, RecvTimeoutError};
use std::thread;
use std::time::{Duration, Instant};

const PATIENCE: Duration = Duration::from_secs(1);

/// Whether somebody may be looking. What the standard error leads to says it; without a name for that nobody is.
fn seen() -> bool {
    let to = fs::read_link("/proc/self/fd/2").unwrap_or_default();
    !QUIET.load(Relaxed) && (to.starts_with("/dev/pts") || to.starts_with("/dev/tty"))
}

fn show(text: &str) {
    let _ = write!(io::stderr(), "\r{text}");
}

fn take_back() {
    show("\x1B[K");
}

/// Does some work, and says meanwhile what it is and how many seconds it has taken.
pub fn during<T>(what: &str, work: impl FnOnce() -> T) -> T {
    if !seen() {
        return work();
    }
    let (working, done) = mpsc::channel::<()>();
    let what = what.to_string();
    let clock = thread::spawn(move || {
        let mut seconds = 0;
        while done.recv_timeout(PATIENCE) == Err(RecvTimeoutError::Timeout) {
            seconds += 1;
            show(&format!("{what}, {seconds} s"));
        }
        if seconds > 0 {
            take_back();
        }
    });
    let result = work();
    drop(working);
    // It has nothing to fail by.
    let _ = clock.join();
    result
}

/// How many of some documents are done.
pub struct Progress {
    from: Instant,
    all: usize,
    shown: bool,
    seen: bool,
}

impl Progress {
    pub fn new(all: usize) -> Progress {
        Progress { from: Instant::now(), all, shown: false, seen: seen() }
    }

    pub fn say(&mut self, done: usize) {
        if self.seen && self.from.elapsed() > PATIENCE {
            show(&format!("{done} of {} documents", self.all));
            self.shown = true;
        }
    }

    pub fn clear(&mut self) {
        if self.shown {
            take_back();
            self.shown = false;
        }
    }
}
