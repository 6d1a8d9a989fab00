//! How far the work is, for a person who watches; a file or a pipe gets nothing.

use std::io::{self, IsTerminal, Write};

pub struct Progress {
    watched: bool,
}

impl Progress {
    pub fn new() -> Progress {
        Progress {
            watched: io::stderr().is_terminal(),
        }
    }

    pub fn show(&self, done: usize, rows: usize) {
        self.say(&format!("\rrow {done} of {rows}"));
    }

    fn say(&self, text: &str) {
        if self.watched {
            // Not worth ending the work for.
            let _ = io::stderr().write_all(text.as_bytes());
        }
    }
}

impl Drop for Progress {
    fn drop(&mut self) {
        self.say("\r\x1b[K");
    }
}
