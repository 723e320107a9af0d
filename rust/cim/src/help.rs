//! What `--help` prints, made from the table of commands.

use crate::command::{Choice, Command};
use crate::commands;

pub const VERSION: &str = concat!("cim ", env!("CARGO_PKG_VERSION"), "\n");

/// What the command is, in a line.
pub const ABOUT: &str =
    "checks, lists and writes AEROSNAP snapshots, and reads DSKC wrappers, AIPC messages and rings";

/// What holds for all commands.
pub const ALL: &str = "\
`-` is standard input or standard output; behind `--` words that begin with a dash are files. An output
is written beside its target and renamed once it is on the disk: the target is the old file or the new
one, whole. Commands that write to one file wait for each other, up to a minute.

Status: 0 done; 1 refused, with the refusal on standard error as `refused NUMBER NAME at PLACE: WHY`, or
different, not there or not ready; 2 a command line that is not understood; 3 a file that cannot be read or
written, or too little memory; 4 done, but something is lost (`cim salvage`).
";

/// The column at which what a command does is said.
const COLUMN: usize = 38;

/// Two words side by side, or, where the first is too long, one below the other.
fn row(left: &str, right: &str) -> String {
    match left.len() + 4 > COLUMN {
        true => format!("  {left}\n{:COLUMN$}{right}\n", ""),
        false => format!("  {left:<width$}{right}\n", width = COLUMN - 2),
    }
}

/// The ways to call a command.
pub fn usages(command: &Command) -> impl Iterator<Item = String> + '_ {
    command.usage.iter().map(|words| format!("cim {} {words}", command.name).trim_end().to_string())
}

/// An option as it is given.
pub fn given(choice: &Choice) -> String {
    match choice.value {
        Some(value) => format!("{} {value}", choice.name),
        None => choice.name.to_string(),
    }
}

/// The help about everything.
pub fn overview() -> String {
    let mut text = format!("cim: {ABOUT}\n\n");
    for command in commands::ALL {
        let usage = usages(command).next().unwrap_or_default();
        text += &row(&usage, command.about);
    }
    text += &row("cim COMMAND --help", "more about a command");
    text += &row("cim --version", "its version");
    format!("{text}\n{ALL}")
}

/// The help about a command.
pub fn about(command: &Command) -> String {
    let mut text = String::new();
    for usage in usages(command) {
        text += &usage;
        text.push('\n');
    }
    text.push('\n');
    text += command.help;
    if !command.options.is_empty() {
        text += "\nOptions:\n\n";
        for choice in command.options {
            text += &row(&given(choice), choice.about);
        }
    }
    text
}

#[cfg(test)]
mod tests {
    use super::*;

    #[test]
    fn each_option_of_a_usage_is_in_the_table() {
        for command in commands::ALL {
            for word in command.usage.iter().flat_map(|usage| usage.split_whitespace()) {
                let known = command.options.iter().any(|choice| choice.name == word);
                assert!(!word.starts_with('-') || known, "{}: {word}", command.name);
            }
        }
    }

    #[test]
    fn lines_fit_a_screen_but_for_examples() {
        for command in commands::ALL {
            for line in about(command).lines().filter(|line| !line.starts_with("  ")) {
                assert!(line.chars().count() <= 108, "{}: {line}", command.name);
            }
            assert!(command.help.ends_with('\n') && !command.help.contains("\n\n\n"));
        }
    }
}
