//! A line on a terminal that says how far a long call is.

use starshackle_streams::{is_terminal, Stream};
use std::io::{self, Write};
use std::time::{Duration, Instant};

/// As often as the line changes. A call that is shorter shows none.
const EVERY: Duration = Duration::from_millis(200);
/// The clock is looked at behind so many things.
const THINGS: u64 = 64;

pub struct Progress {
    /// None where nobody would see it, or where it would stand among the answers.
    next: Option<Instant>,
    thing: &'static str,
    count: u64,
    shown: bool,
}

impl Progress {
    pub fn of(thing: &'static str) -> Progress {
        let seen = is_terminal(Stream::Error) && !is_terminal(Stream::Output);
        Progress { next: seen.then(|| Instant::now() + EVERY), thing, count: 0, shown: false }
    }

    /// Counts one thing more.
    pub fn step(&mut self) {
        self.count += 1;
        let now = match self.next {
            Some(next) if self.count % THINGS == 0 => {
                Some(Instant::now()).filter(|now| *now >= next)
            }
            _ => None,
        };
        if let Some(now) = now {
            self.next = Some(now + EVERY);
            self.shown = true;
            // A line that can't be shown is no loss.
            let _ = write!(io::stderr(), "\r{} {}", self.count, self.thing);
        }
    }

    /// Takes the line away, for a message or at the end.
    pub fn clear(&mut self) {
        if std::mem::take(&mut self.shown) {
            let _ = write!(io::stderr(), "\r\x1B[K");
        }
    }
}

impl Drop for Progress {
    fn drop(&mut self) {
        self.clear();
    }
}
