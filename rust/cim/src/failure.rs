//! Why a command ends without its answer, what it says then and with which status.

use crate::files::{complain, print};
use crate::json::Object;
use crate::place;
use crate::shown::around;
use cimbrolau::{snapshot, wrapper, Kind, Refusal};
use std::fmt::Display;
use std::io::{self, ErrorKind};
use std::process::ExitCode;

/// Why a command ends without its answer.
pub enum Failure {
    /// The library refuses the input: status 1.
    Refused(Box<Told>),
    /// What is asked for is not there: status 1.
    Absent(String),
    /// All is said already, and this is the status.
    Said(u8),
    /// The command line is not understood: status 2.
    Usage(String),
    /// A file cannot be read or written, or memory is short: status 3.
    Io(String),
    /// Nobody reads the output any more, as behind `| head`: status 3 without a word.
    Closed,
}

/// A refusal, and what can be said beside it.
pub struct Told {
    /// What is refused, where a command has more than one input.
    pub of: Option<String>,
    /// Which line of it, where it is a list.
    pub line: Option<usize>,
    pub refusal: Refusal,
    /// Where its place lies, in words.
    pub lies: Option<String>,
    /// The bytes around the place, and where the first of them stands.
    pub bytes: Option<(usize, String)>,
}

impl Told {
    /// The refusal on a line, and the bytes on a second one.
    pub fn words(&self) -> String {
        let Refusal { kind, place } = self.refusal;
        let line = self.line.map_or_else(String::new, |line| format!(", line {line}"));
        let of = self.of.as_ref().map_or_else(String::new, |of| format!("{of}{line}: "));
        let mut words = format!("{of}refused {} {} at {place}", kind.number(), kind.name());
        if place > 9 {
            words += &format!(" (0x{place:X})");
        }
        words += &format!(": {}", kind.meaning());
        if let Some(lies) = &self.lies {
            words += &format!(": {lies}");
        }
        if let Some((from, bytes)) = &self.bytes {
            words += &format!("\nbytes from {from}: {bytes}");
        }
        words
    }

    /// The refusal as members of an object.
    pub fn members(&self, object: Object) -> Object {
        let Refusal { kind, place } = self.refusal;
        let object = object.perhaps("file", self.of.as_deref());
        let object = match self.line {
            Some(line) => object.number("line", line as u64),
            None => object,
        };
        let object = object
            .number("number", kind.number())
            .text("name", kind.name())
            .number("place", place)
            .text("meaning", kind.meaning())
            .perhaps("where", self.lies.as_deref());
        match &self.bytes {
            Some((from, bytes)) => object.number("bytes_from", *from as u64).text("bytes", bytes),
            None => object,
        }
    }
}

impl Failure {
    /// A failed reading or writing, told as what was tried and why it failed.
    pub fn io(tried: impl Display, error: io::Error) -> Failure {
        if error.kind() == ErrorKind::BrokenPipe {
            return Failure::Closed;
        }
        Failure::Io(format!("{tried}: {error}"))
    }

    /// A refusal, told with what is refused.
    pub fn named(mut self, of: &str) -> Failure {
        if let Failure::Refused(told) = &mut self {
            told.of = Some(of.to_string());
        }
        self
    }

    /// A refusal of what stands on a line, told with its number.
    pub fn on_line(mut self, number: usize) -> Failure {
        if let Failure::Refused(told) = &mut self {
            told.line = Some(number);
        }
        self
    }

    /// A refusal, told with where its place lies.
    pub fn lying(mut self, lies: Option<String>) -> Failure {
        if let Failure::Refused(told) = &mut self {
            told.lies = lies;
        }
        self
    }

    /// A fault of the command line, told with the command that it was given to.
    pub fn of_command(self, name: &str) -> Failure {
        match self {
            Failure::Usage(fault) => {
                Failure::Usage(format!("{name}: {fault}; see `cim {name} --help`"))
            }
            other => other,
        }
    }

    /// Tells the failure, on standard error or a refusal as an object on standard output; the status to end with.
    pub fn told(self, json: bool) -> ExitCode {
        match self {
            Failure::Refused(told) if json => {
                match print(&format!("{}\n", told.members(Object::new("refused")))) {
                    Ok(()) => ExitCode::from(1),
                    Err(failure) => failure.told(false),
                }
            }
            Failure::Refused(told) => {
                complain(told.words());
                ExitCode::from(1)
            }
            Failure::Absent(sentence) => {
                complain(format_args!("cim: {sentence}"));
                ExitCode::from(1)
            }
            Failure::Said(status) => ExitCode::from(status),
            Failure::Usage(fault) => {
                complain(format_args!("cim: {fault}"));
                ExitCode::from(2)
            }
            Failure::Io(sentence) => {
                complain(format_args!("cim: {sentence}"));
                ExitCode::from(3)
            }
            Failure::Closed => ExitCode::from(3),
        }
    }
}

impl From<Refusal> for Failure {
    /// ROOM of a call that makes its own output is no fault of the input: there is no memory for it.
    fn from(refusal: Refusal) -> Failure {
        match refusal {
            Refusal { kind: Kind::Room, place } => {
                Failure::Io(format!("out of memory: the output takes {place} bytes"))
            }
            _ => Failure::Refused(Box::new(Told {
                of: None,
                line: None,
                refusal,
                lies: None,
                bytes: None,
            })),
        }
    }
}

/// A refusal of this input: with the bytes around its place.
pub fn of_input(input: &[u8]) -> impl FnOnce(Refusal) -> Failure + '_ {
    |refusal| of(refusal, input, |_| None)
}

/// The same, with what stands at the place.
pub fn of_part(input: &[u8], what: String) -> impl FnOnce(Refusal) -> Failure + '_ {
    move |refusal| of(refusal, input, |_| Some(what.clone()))
}

/// A refusal of a call on this snapshot. If it is the snapshot's own, with where its place lies and the bytes around it; at
/// place 0 of an add stands nothing of the file.
pub fn of_snapshot(file: &[u8]) -> impl FnOnce(Refusal) -> Failure + '_ {
    |refusal| match snapshot::check(file) {
        Err(own) if own == refusal => of(own, file, |own| place::in_snapshot(file, own)),
        _ => refusal.into(),
    }
}

/// A refusal of this wrapper.
pub fn of_wrapper(bytes: &[u8]) -> impl FnOnce(Refusal) -> Failure + '_ {
    |refusal| match wrapper::check(bytes) {
        Err(own) if own == refusal => of(own, bytes, |own| place::in_wrapper(bytes, own)),
        _ => refusal.into(),
    }
}

fn of(refusal: Refusal, input: &[u8], lies: impl Fn(Refusal) -> Option<String>) -> Failure {
    match Failure::from(refusal) {
        Failure::Refused(mut told) => {
            let place = usize::try_from(refusal.place).ok().filter(|place| *place <= input.len());
            // Of an input that is too long, or has no byte, nothing need be shown.
            let shows =
                refusal.kind != Kind::Size && refusal.kind != Kind::Limit || refusal.place > 0;
            told.bytes = place.filter(|_| shows && !input.is_empty()).map(|at| around(input, at));
            told.lies = lies(refusal);
            Failure::Refused(told)
        }
        other => other,
    }
}
