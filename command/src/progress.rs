//! A line on standard error that tells a person how far a long work has come.

use std::io::{self, IsTerminal, Write};
use std::time::{Duration, Instant};

/// After so many values it is looked whether the line is due.
const STEP: u64 = 1024;
const PAUSE: Duration = Duration::from_millis(100);
/// Goes to the start of the line and clears it.
const ERASE: &str = "\r\x1b[K";

/// It is shown where standard error is a terminal and standard output is none, among whose lines it would stand. It is erased when it is
/// dropped. A standard error that takes no word changes nothing.
pub struct Progress {
    is_shown: bool,
    /// When it is told next; none before the first time.
    next: Option<Instant>,
}

impl Progress {
    pub fn new() -> Self {
        Progress { is_shown: io::stderr().is_terminal() && !io::stdout().is_terminal(), next: None }
    }

    /// Tells how many values are done, a few times a second.
    pub fn tell(&mut self, count: u64) {
        if !self.is_shown || count % STEP != 0 || self.next.is_some_and(|next| Instant::now() < next) {
            return;
        }
        self.next = Some(Instant::now() + PAUSE);
        write(&format!("{ERASE}{count} values"));
    }
}

impl Drop for Progress {
    fn drop(&mut self) {
        if self.next.is_some() {
            write(ERASE);
        }
    }
}

fn write(text: &str) {
    let _ = io::stderr().write_all(text.as_bytes());
}
