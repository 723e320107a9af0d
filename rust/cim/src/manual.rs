//! `cim manual`: the manual page, made from the table of commands.

use crate::command::Command;
use crate::commands;
use crate::failure::Failure;
use crate::files;
use crate::help;
use crate::words::Words;

pub const COMMAND: Command = Command {
    name: "manual",
    usage: &[""],
    about: "the manual page",
    help: "\
Prints the manual page in the form that man(1) reads. It stands in docs/cim.1.

  cim manual > cim.1 && man ./cim.1
",
    options: &[],
    run,
};

fn run(words: &Words) -> Result<(), Failure> {
    let [] = words.plain("no word")?;
    files::print(&page())
}

/// A line that the formatter takes as it is.
fn line(text: &str) -> String {
    let text = text.replace('\\', "\\e").replace('-', "\\-");
    match text.starts_with(['.', '\'']) {
        true => format!("\\&{text}\n"),
        false => format!("{text}\n"),
    }
}

/// Paragraphs of help: lines behind two spaces stay as they are.
fn paragraphs(help: &str) -> String {
    let mut page = String::new();
    let mut as_is = false;
    for text in help.lines() {
        let shown = text.starts_with("  ");
        if shown != as_is && !text.is_empty() {
            page += if shown { ".nf\n" } else { ".fi\n" };
            as_is = shown;
        }
        page += if text.is_empty() { ".PP\n".into() } else { line(text.trim_end()) }.as_str();
    }
    if as_is {
        page += ".fi\n";
    }
    page
}

/// The whole page.
pub fn page() -> String {
    let mut page = String::from(".TH CIM 1\n.SH NAME\n");
    page += &line(&format!("cim - {}", help::ABOUT));
    page += ".SH SYNOPSIS\n.nf\n";
    for command in commands::ALL {
        for usage in help::usages(command) {
            page += &line(&usage);
        }
    }
    page += ".fi\n.SH COMMANDS\n";
    for command in commands::ALL {
        page += &format!(".SS {}", line(command.name));
        page += &line(&sentence(command.about));
        page += ".PP\n";
        page += &paragraphs(command.help);
        for choice in command.options {
            page += &format!(".TP\n{}{}", line(&help::given(choice)), line(choice.about));
        }
    }
    page += ".SH ALL COMMANDS\n";
    page += &paragraphs(help::ALL);
    page
}

/// A line as a sentence.
fn sentence(text: &str) -> String {
    let mut letters = text.chars();
    let first = letters.next().map_or_else(String::new, |first| first.to_uppercase().to_string());
    format!("{first}{}.", letters.as_str())
}
