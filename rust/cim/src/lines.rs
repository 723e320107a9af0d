//! The lines that a command prints: as text, or each as a JSON object.

use crate::command::JSON;
use crate::failure::Failure;
use crate::files;
use crate::json::Object;
use crate::words::Words;
use std::ffi::OsStr;
use std::fmt::{Arguments, Write};

/// Lines that are being made.
pub struct Lines {
    json: bool,
    text: String,
}

impl Lines {
    pub fn new(words: &Words) -> Lines {
        Lines { json: words.has(&JSON), text: String::new() }
    }

    /// A line that only people read.
    pub fn heading(&mut self, text: &str) {
        if !self.json {
            self.text.push_str(text);
            self.text.push('\n');
        }
    }

    /// A line, in words and as an object.
    pub fn line(&mut self, object: Object, words: Arguments) {
        // Writing to a string does not fail.
        let _ = match self.json {
            true => writeln!(self.text, "{object}"),
            false => writeln!(self.text, "{words}"),
        };
    }

    pub fn print(self) -> Result<(), Failure> {
        files::print(&self.text)
    }

    /// Prints them beside an output: on standard error if that is standard output.
    pub fn print_beside(self, out: &OsStr) -> Result<(), Failure> {
        if !files::is_dash(out) {
            return self.print();
        }
        files::complain(self.text.trim_end());
        Ok(())
    }
}
