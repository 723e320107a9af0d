//! `cim`: checks, lists and writes snapshots, and reads wrappers, messages and regions of rings.
//!
//! A command reads its input whole, asks the proved library, and prints or writes what that answers. It ends with
//! status 0; 1 where the library refuses; 2 for a command line that it does not understand; 3 where a file cannot be
//! read or written; 4 where a part of a damaged file is lost.

#![deny(unsafe_code)]

// What commands share.
mod calls;
mod command;
mod device;
mod failure;
mod files;
mod help;
mod hex;
mod json;
mod lines;
mod names;
mod place;
mod progress;
mod select;
mod set;
mod sheet;
mod shown;
mod states;
#[allow(unsafe_code)]
mod system;
mod words;

// The commands, and their table.
mod add_device;
mod add_devices;
mod add_disk;
mod canon;
mod card;
mod check;
mod commands;
mod completions;
mod diff;
mod explain;
mod extract;
mod list;
mod manual;
mod message;
mod ready;
mod region;
mod registers;
mod remove_device;
mod remove_disk;
mod replace_device;
mod salvage;
mod show;
mod wrapper;

use failure::Failure;
use std::ffi::OsString;
use std::process::ExitCode;

fn main() -> ExitCode {
    let words: Vec<OsString> = std::env::args_os().skip(1).collect();
    let mut json = false;
    match run(&words, &mut json) {
        Ok(()) => ExitCode::SUCCESS,
        Err(failure) => failure.told(json),
    }
}

/// Finds the command by its name and gives it the words behind it; says whether refusals are to be told as JSON.
fn run(words: &[OsString], json: &mut bool) -> Result<(), Failure> {
    let Some((first, rest)) = words.split_first() else {
        return Err(Failure::Usage("no command is given; see `cim --help`".into()));
    };
    let name = first.to_str().unwrap_or("");
    match name {
        "--help" | "-h" | "help" => return files::print(&help::overview()),
        "--version" | "-V" => return files::print(help::VERSION),
        _ => (),
    }
    let Some(command) = commands::ALL.iter().find(|command| command.name == name) else {
        let word = shown::name_of(first);
        return Err(Failure::Usage(format!("there is no command `{word}`; see `cim --help`")));
    };
    let split = words::split(rest, command.options);
    if split.as_ref().is_ok_and(|words| words.asks_for_help) {
        return files::print(&help::about(command));
    }
    let words = split
        .map_err(|fault| Failure::Usage(format!("{name}: {fault}; see `cim {name} --help`")))?;
    *json = words.has(&command::JSON);
    (command.run)(&words).map_err(|failure| failure.of_command(name))
}
