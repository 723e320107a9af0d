//! `cim check`: whether snapshots follow the rules.

use crate::command::{only, Choice, Command, JSON};
use crate::failure::{of_snapshot, Failure};
use crate::files;
use crate::json::Object;
use crate::shown::name_of;
use crate::words::Words;
use cimbrolau::snapshot;
use std::ffi::OsStr;

const QUIET: Choice = only("-q", "say nothing of files that are taken");

pub const COMMAND: Command = Command {
    name: "check",
    usage: &["FILE.."],
    about: "whether snapshots follow the rules",
    help: "\
Prints a line for each file: its name, and `taken` if it follows the rules. Else it is refused with its
first fault, on standard error: the number and the name of the refusal, the byte at which it stands, where
that lies, as far as the calls of the library can say it, and the bytes around it, that one in brackets:

  dup: refused 13 KEY at 53 (0x35): key again: DEVICES, entry 1 (device 3 PIT, version 1, flags 0), the same key as entry 0 at 36
  bytes from 45: 00 00 00 00 00 00 00 11 [03] 00 00 00 01 00 00 00 02

Sections and entries are counted from 0. `cim explain KEY` says what to do. With --json all of it is on
standard output. The status is 1 if a file is refused, and 3 if one cannot be read.
",
    options: &[QUIET, JSON],
    run,
};

fn run(words: &Words) -> Result<(), Failure> {
    let names = words.some("one FILE or more")?;
    if names.iter().filter(|name| *name == "-").count() > 1 {
        return Err(Failure::Usage("only one input can be standard input".into()));
    }
    let mut status = 0;
    for name in names {
        status = status.max(one(words, name)?);
    }
    match status {
        0 => Ok(()),
        _ => Err(Failure::Said(status)),
    }
}

/// Checks a file and says what is found; the status that it asks for.
fn one(words: &Words, name: &OsStr) -> Result<u8, Failure> {
    let shown = name_of(name);
    let json = words.has(&JSON);
    let file = || Object::new("check").text("file", &shown);
    let found = files::read(name, snapshot::MOST_BYTES)
        .and_then(|file| snapshot::check(&file).map_err(of_snapshot(&file)))
        .map_err(|failure| if json { failure } else { failure.named(&shown) });
    let (object, status) = match found {
        Ok(()) if words.has(&QUIET) => return Ok(0),
        Ok(()) if !json => return files::print(&format!("{shown}: taken\n")).map(|()| 0),
        Ok(()) => (file().text("verdict", "taken"), 0),
        Err(Failure::Refused(told)) if !json => {
            files::complain(told.words());
            return Ok(1);
        }
        Err(Failure::Refused(told)) => (told.members(file().text("verdict", "refused")), 1),
        Err(Failure::Io(why)) if !json => {
            files::complain(format_args!("cim: {why}"));
            return Ok(3);
        }
        Err(Failure::Io(why)) => (file().text("verdict", "unread").text("why", &why), 3),
        Err(failure) => return Err(failure),
    };
    files::print(&format!("{object}\n"))?;
    Ok(status)
}
