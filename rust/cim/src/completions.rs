//! `cim completions`: what a shell offers behind `cim`, made from the table of commands.

use crate::command::{Choice, Command};
use crate::commands;
use crate::failure::Failure;
use crate::files;
use crate::shown::name_of;
use crate::words::Words;
use std::fmt::Write;

pub const COMMAND: Command = Command {
    name: "completions",
    usage: &["bash|zsh|fish"],
    about: "what a shell offers behind `cim`",
    help: "\
Prints a script for the shell, which then offers commands, options and files behind `cim`:

  cim completions bash > ~/.local/share/bash-completion/completions/cim
  cim completions zsh > ~/.zfunc/_cim
  cim completions fish > ~/.config/fish/completions/cim.fish
",
    options: &[],
    run,
};

fn run(words: &Words) -> Result<(), Failure> {
    let [shell] = words.plain("one of bash, zsh and fish")?;
    let script = match shell.to_str() {
        Some("bash") => bash(),
        Some("zsh") => zsh(),
        Some("fish") => fish(),
        _ => {
            let fault = format!("`{}` is none of bash, zsh and fish", name_of(shell));
            return Err(Failure::Usage(fault));
        }
    };
    files::print(&script)
}

/// The names of all commands, parted by spaces.
fn names() -> String {
    commands::ALL.iter().map(|command| command.name).collect::<Vec<_>>().join(" ")
}

/// The options of a command, `--help` among them.
fn options(command: &Command) -> Vec<&'static str> {
    command.options.iter().map(|choice| choice.name).chain(["--help"]).collect()
}

fn bash() -> String {
    let mut cases = String::new();
    for command in commands::ALL {
        let options = options(command).join(" ");
        // Writing to a string does not fail.
        let _ = writeln!(cases, "        {}) options='{options}' ;;", command.name);
    }
    format!(
        "\
# bash completion for cim
_cim() {{
    local word=${{COMP_WORDS[COMP_CWORD]}} options=
    if [ \"$COMP_CWORD\" -eq 1 ]; then
        COMPREPLY=($(compgen -W '{} --help --version' -- \"$word\"))
        return
    fi
    case ${{COMP_WORDS[1]}} in
{cases}    esac
    case $word in
        -*) COMPREPLY=($(compgen -W \"$options\" -- \"$word\")) ;;
        *) COMPREPLY=($(compgen -f -- \"$word\")) ;;
    esac
}}
complete -o filenames -F _cim cim
",
        names()
    )
}

/// A text in quotes of zsh and fish.
fn quoted(text: &str) -> String {
    format!("'{}'", text.replace('\\', "\\\\").replace('\'', "'\\''").replace('`', ""))
}

fn zsh() -> String {
    let mut commands = String::new();
    let mut cases = String::new();
    for command in commands::ALL {
        let about = command.about.replace(':', "\\:");
        let _ = writeln!(commands, "        {}", quoted(&format!("{}:{about}", command.name)));
        let mut words = String::new();
        for choice in command.options {
            let Choice { name, value, about } = *choice;
            let value = value.map_or_else(String::new, |value| format!(":{value}:_files"));
            let _ = write!(words, " {}", quoted(&format!("{name}[{about}]{value}")));
        }
        let _ = writeln!(cases, "        {}) _arguments{words} '*:file:_files' ;;", command.name);
    }
    format!(
        "\
#compdef cim
_cim() {{
    local -a commands=(
{commands}    )
    if (( CURRENT == 2 )); then
        _describe command commands
        return
    fi
    local command=$words[2]
    shift words
    (( CURRENT-- ))
    case $command in
{cases}    esac
}}
_cim \"$@\"
"
    )
}

fn fish() -> String {
    let mut script = String::from("# fish completion for cim\n");
    for command in commands::ALL {
        let (name, about) = (command.name, quoted(command.about));
        let _ = writeln!(script, "complete -c cim -n __fish_use_subcommand -a {name} -d {about}");
        for Choice { name: option, value, about } in command.options {
            let (letter, word) = match option.strip_prefix("--") {
                Some(word) => ("-l", word),
                None => ("-s", option.trim_start_matches('-')),
            };
            let value = if value.is_some() { " -r" } else { "" };
            let about = quoted(about);
            let _ = writeln!(
                script,
                "complete -c cim -n '__fish_seen_subcommand_from {name}' {letter} {word}{value} -d {about}"
            );
        }
    }
    script
}
