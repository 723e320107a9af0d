//! `cim message`: what a message says.

use crate::command::{with, Command, JSON};
use crate::failure::{of_input, Failure};
use crate::files;
use crate::hex;
use crate::json::Object;
use crate::lines::Lines;
use crate::shown::{self, name_of};
use crate::words::Words;
use cimbrolau::{Message, Refusal};
use std::ffi::OsStr;
use std::fmt::Write;
use std::path::Path;

pub const COMMAND: Command = Command {
    name: "message",
    usage: &["FILE|HEX", "--hex HEX"],
    about: "what a message says",
    help: "\
Prints the kind of the message and its numbers by name. HEX is the message itself, two digits for each
byte, where no file has that name; behind --hex it is so whatever files there are. Between bytes there
may be spaces, commas, colons or dashes, and 0x before them. Data is named by its place and its length,
and shown behind that: as text if it is text, else in hexadecimal.

  cim message '01 11 07 00 00 00 0F 00 00 00'
  PortReadResp id 7 value 15
",
    options: &[with("--hex", "HEX", "the message in hexadecimal"), JSON],
    run,
};

fn run(words: &Words) -> Result<(), Failure> {
    let bytes = match words.option("--hex") {
        Some(word) => {
            let [] = words.plain("FILE or --hex, not both")?;
            let text = word.to_str().unwrap_or("?");
            hex::bytes_of(text)
                .map_err(|why| Failure::Usage(format!("`--hex {}`: {why}", name_of(word))))?
        }
        None => {
            let [word] = words.plain("one FILE or HEX")?;
            match said(word)? {
                Some(bytes) => bytes,
                None => files::read(word, Message::MOST_BYTES)?,
            }
        }
    };
    let mut lines = Lines::new(words);
    let told = Told::of(&bytes).map_err(of_input(&bytes))?;
    lines.line(told.object, format_args!("{}", told.words));
    lines.print()
}

/// The bytes that a word says in hexadecimal, if it names no file.
fn said(word: &OsStr) -> Result<Option<Vec<u8>>, Failure> {
    let text = word.to_str().unwrap_or("?");
    if word == "-" || Path::new(word).exists() || !hex::may_be(text) {
        return Ok(None);
    }
    match hex::bytes_of(text) {
        Ok(bytes) => Ok(Some(bytes)),
        Err(why) => Err(Failure::Usage(format!(
            "there is no file `{}`, and as hexadecimal {why}",
            name_of(word)
        ))),
    }
}

/// What a message says: its kind, its numbers by name, where its data stands in it, and the data.
pub struct Told {
    pub words: String,
    pub object: Object,
}

impl Told {
    pub fn of(bytes: &[u8]) -> Result<Told, Refusal> {
        let message = Message::read(bytes)?;
        let mut words = String::from(message.name());
        let mut object = Object::new("message").text("name", message.name());
        for (name, number) in message.numbers() {
            // Writing to a string does not fail.
            let _ = write!(words, " {name} {number}");
            object = object.number(name, number);
        }
        if let Some(data) = message.data() {
            let (place, length) = (bytes.len() - data.len(), data.len());
            let is_text = matches!(message, Message::Log { .. } | Message::Panic { .. });
            let text = if is_text { std::str::from_utf8(data).ok() } else { shown::text_of(data) };
            let said = text.map_or_else(|| shown::data(data), |text| format!("{text:?}"));
            let _ = write!(words, " data {place} {length} {said}");
            object =
                object.number("data_offset", place as u64).number("data_length", length as u64);
            object = match text {
                Some(text) => object.text("text", text),
                None => object.text("hex", shown::hex(data).trim_start()),
            };
        }
        Ok(Told { words, object })
    }
}
