//! A line on a terminal about how far a long reading or writing has come. It is gone when that ends.

use crate::shown::size;
use std::io::{self, IsTerminal, Write};

/// Shorter ones are done before a line about them is read.
const LONG: u64 = 64 << 20;

/// A reading or a writing that goes on.
pub struct Progress {
    /// What is done, as `reading FILE`.
    what: String,
    /// How many bytes there are in all, if that is known.
    whole: Option<u64>,
    terminal: bool,
    said: bool,
}

impl Progress {
    pub fn new(what: String, whole: Option<u64>) -> Progress {
        Progress { what, whole, terminal: io::stderr().is_terminal(), said: false }
    }

    /// Says that so many bytes are done.
    pub fn at(&mut self, done: u64) {
        if self.terminal && self.whole.unwrap_or(done) > LONG {
            self.said = true;
            // Where nobody listens, nothing is lost.
            let _ = write!(io::stderr(), "\r{}\x1b[K", self.line(done));
        }
    }

    fn line(&self, done: u64) -> String {
        let whole = self.whole.map_or_else(String::new, |whole| format!(" of {}", size(whole)));
        format!("{}: {}{whole}", self.what, size(done))
    }
}

impl Drop for Progress {
    fn drop(&mut self) {
        if self.said {
            let _ = write!(io::stderr(), "\r\x1b[K");
        }
    }
}

#[cfg(test)]
mod tests {
    use super::*;

    #[test]
    fn the_line_says_how_far_it_is() {
        let mut progress = Progress::new("reading in".into(), Some(128 << 20));
        assert_eq!(progress.line(8 << 20), "reading in: 8.0 MiB of 128.0 MiB");
        progress.whole = None;
        assert_eq!(progress.line(80 << 20), "reading in: 80.0 MiB");
    }
}
