//! What a command is, as the table of commands has it. Help, manual and completions are made from that table.

use crate::failure::Failure;
use crate::words::Words;

/// A command: its name, how it is called, what is said about it, and what it does.
pub struct Command {
    pub name: &'static str,
    /// The words behind its name, one line for each way to call it.
    pub usage: &'static [&'static str],
    /// What it does, in a line.
    pub about: &'static str,
    /// What else there is to say, in paragraphs of lines; examples stand behind two spaces.
    pub help: &'static str,
    /// The options that it knows.
    pub options: &'static [Choice],
    pub run: fn(&Words) -> Result<(), Failure>,
}

/// An option of a command: with a value, or one that is only given.
#[derive(Clone, Copy)]
pub struct Choice {
    pub name: &'static str,
    /// What its value is, if it has one.
    pub value: Option<&'static str>,
    pub about: &'static str,
}

/// An option that has a value.
pub const fn with(name: &'static str, value: &'static str, about: &'static str) -> Choice {
    Choice { name, value: Some(value), about }
}

/// An option that is only given.
pub const fn only(name: &'static str, about: &'static str) -> Choice {
    Choice { name, value: None, about }
}

pub const JSON: Choice = only("--json", "print one JSON object a line");
pub const KEEP: Choice = only("--no-clobber", "do not replace OUT if it is there");
