//! The words of a command line behind the command's name: files, and options with their values.

use crate::command::Choice;
use crate::failure::Failure;
use crate::shown::name_of;
use std::ffi::{OsStr, OsString};
use std::os::unix::ffi::OsStrExt;

/// The words of a command line, sorted.
pub struct Words {
    plain: Vec<OsString>,
    options: Vec<(&'static str, OsString)>,
    /// Whether one of them is `--help`.
    pub asks_for_help: bool,
}

/// Sorts the words by the options that the command knows. A value is the next word or stands behind `=`; behind `--` all
/// words are plain, and so is `-`.
pub fn split(words: &[OsString], known: &[Choice]) -> Result<Words, String> {
    let mut sorted = Words { plain: Vec::new(), options: Vec::new(), asks_for_help: false };
    let mut rest = words.iter();
    while let Some(word) = rest.next() {
        let bytes = word.as_bytes();
        if word == "--" {
            sorted.plain.extend(rest.cloned());
            break;
        }
        if !bytes.starts_with(b"-") || word == "-" {
            sorted.plain.push(word.clone());
            continue;
        }
        if word == "--help" || word == "-h" {
            sorted.asks_for_help = true;
            continue;
        }
        let (name, behind) = match bytes.iter().position(|byte| *byte == b'=') {
            Some(at) => (&bytes[..at], Some(OsStr::from_bytes(&bytes[at + 1..]))),
            None => (bytes, None),
        };
        let Some(choice) = known.iter().find(|choice| choice.name.as_bytes() == name) else {
            return Err(format!("there is no option `{}`", name_of(OsStr::from_bytes(name))));
        };
        let name = choice.name;
        if sorted.option(name).is_some() {
            return Err(format!("`{name}` is given twice"));
        }
        let value = match (choice.value, behind) {
            (None, None) => OsStr::new(""),
            (None, Some(_)) => return Err(format!("`{name}` takes no value")),
            (Some(_), Some(value)) => value,
            (Some(_), None) => rest.next().ok_or_else(|| format!("`{name}` lacks its value"))?,
        };
        sorted.options.push((name, value.to_os_string()));
    }
    Ok(sorted)
}

impl Words {
    /// The plain words, where there are as many as the command takes; `names` says what they are.
    pub fn plain<const N: usize>(&self, names: &str) -> Result<[&OsStr; N], Failure> {
        let words: Vec<&OsStr> = self.plain.iter().map(OsString::as_os_str).collect();
        let given = words.len();
        words
            .try_into()
            .map_err(|_| Failure::Usage(format!("takes {names}, and {given} are given")))
    }

    /// All plain words, of which there is at least one.
    pub fn some(&self, names: &str) -> Result<&[OsString], Failure> {
        match self.plain.as_slice() {
            [] => Err(Failure::Usage(format!("takes {names}, and 0 are given"))),
            words => Ok(words),
        }
    }

    /// Whether an option is given.
    pub fn has(&self, choice: &Choice) -> bool {
        self.option(choice.name).is_some()
    }

    /// The value of an option, if it is given.
    pub fn option(&self, name: &str) -> Option<&OsStr> {
        self.options.iter().find(|(given, _)| *given == name).map(|(_, value)| value.as_os_str())
    }

    /// The value of an option that has to be given.
    pub fn needed(&self, name: &str) -> Result<&OsStr, Failure> {
        self.option(name).ok_or_else(|| Failure::Usage(format!("`{name}` is missing")))
    }

    /// The number of an option that has to be given: decimal, or hexadecimal behind 0x.
    pub fn number(&self, name: &str, most: u32) -> Result<u32, Failure> {
        let value = self.needed(name)?;
        number_of(value).filter(|number| *number <= most).ok_or_else(|| {
            let word = name_of(value);
            Failure::Usage(format!("`{name} {word}` is no number from 0 to {most}"))
        })
    }
}

/// The number that a word says. A sign is no part of one.
pub fn number_of(word: &OsStr) -> Option<u32> {
    let text = word.to_str()?;
    let (digits, base) = match text.strip_prefix("0x") {
        Some(digits) => (digits, 16),
        None => (text, 10),
    };
    if !digits.chars().all(|digit| digit.is_digit(base)) {
        return None;
    }
    u32::from_str_radix(digits, base).ok()
}

#[cfg(test)]
mod tests {
    use super::*;
    use crate::command::{only, with};

    const KNOWN: &[Choice] = &[with("--id", "N", ""), only("-q", "")];

    fn sorted(words: &[&str]) -> Result<Words, String> {
        split(&words.iter().map(OsString::from).collect::<Vec<_>>(), KNOWN)
    }

    #[test]
    fn numbers_are_decimal_or_hexadecimal() {
        let number = |text: &str| number_of(OsStr::new(text));
        assert_eq!(number("0"), Some(0));
        assert_eq!(number("4294967295"), Some(u32::MAX));
        assert_eq!(number("0xFFFFFFFF"), Some(u32::MAX));
        for fault in ["", "0x", "+1", "-1", "0x+1", "1 ", "f", "4294967296", "0x100000000"] {
            assert_eq!(number(fault), None, "{fault:?}");
        }
    }

    #[test]
    fn words_are_sorted() {
        let words = sorted(&["-", "--id", "3", "file", "-q"]).unwrap_or_else(|_| panic!("refused"));
        assert_eq!(words.plain, ["-", "file"]);
        assert_eq!(words.option("--id"), Some(OsStr::new("3")));
        assert!(words.has(&KNOWN[1]) && !words.asks_for_help);
        assert!(!sorted(&["--id", "-h", "--", "--help"]).is_ok_and(|words| words.asks_for_help));
        assert!(sorted(&["file", "-h"]).is_ok_and(|words| words.asks_for_help));
        for (words, fault) in [
            (&["--fast=1"][..], "there is no option `--fast`"),
            (&["--id"], "`--id` lacks its value"),
            (&["--id", "1", "--id=2"], "`--id` is given twice"),
            (&["-q=1"], "`-q` takes no value"),
        ] {
            assert_eq!(sorted(words).err().as_deref(), Some(fault));
        }
    }

    #[test]
    fn values_stand_behind_an_equals_sign_and_files_behind_two_dashes() {
        let words = sorted(&["--id=3=4", "--", "--id", "-q"]).unwrap_or_else(|_| panic!("refused"));
        assert_eq!(words.option("--id"), Some(OsStr::new("3=4")));
        assert_eq!(words.plain, ["--id", "-q"]);
        assert!(!words.has(&KNOWN[1]));
        let words = sorted(&["--id="]).unwrap_or_else(|_| panic!("refused"));
        assert_eq!(words.option("--id"), Some(OsStr::new("")));
    }
}
