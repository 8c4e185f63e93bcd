//! How far long work is, told on a terminal alone: a file or a pipe gets the answer and nothing else.

use std::io::{self, IsTerminal, Write};
use std::time::{Duration, Instant};

/// Work that is done in a second is not told.
const PATIENCE: Duration = Duration::from_secs(1);
const EVERY: Duration = Duration::from_millis(200);

pub struct Progress {
    what: &'static str,
    /// When to tell next; never where nobody looks.
    next: Option<Instant>,
    told: bool,
}

impl Progress {
    /// Of work that counts these.
    pub fn of(what: &'static str) -> Progress {
        let looked_at = io::stderr().is_terminal();
        Progress {
            what,
            next: looked_at.then(|| Instant::now() + PATIENCE),
            told: false,
        }
    }

    /// So many are done.
    pub fn tell(&mut self, done: usize) {
        if self.next.is_some_and(|next| Instant::now() >= next) {
            // Where it can't be told, the work goes on all the same.
            let _ = write!(io::stderr(), "\rnghi: {done} {}", self.what);
            self.next = Some(Instant::now() + EVERY);
            self.told = true;
        }
    }
}

impl Drop for Progress {
    /// The line is taken away again.
    fn drop(&mut self) {
        if self.told {
            let _ = write!(io::stderr(), "\r\x1b[K");
        }
    }
}
