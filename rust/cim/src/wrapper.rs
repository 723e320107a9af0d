//! `cim wrapper`: the controllers of a disk-controller wrapper.

use crate::command::{with, Command, JSON};
use crate::failure::{of_snapshot, of_wrapper, Failure};
use crate::files;
use crate::json::Object;
use crate::lines::Lines;
use crate::names;
use crate::select;
use crate::words::Words;
use cimbrolau::snapshot;
use cimbrolau::wrapper::{self, Controller};

pub const COMMAND: Command = Command {
    name: "wrapper",
    usage: &["FILE", "FILE --device ID,VERSION,FLAGS"],
    about: "the controllers of a disk-controller wrapper",
    help: "\
Checks a disk-controller wrapper and prints a heading and a line for each controller, in the order of
their addresses. Offsets count from the start of the wrapper. Bytes of a tag that are no letters are
shown as \\x20. With --device FILE is a snapshot, and the wrapper is the payload of that device; VERSION
and FLAGS may be left out where only one device has that ID. In snapshots it is device 6.

  address bus device function tag offset length position

A position is the controller's number in the wrapper's own list, from 0.
",
    options: &[with("--device", "ID,VERSION,FLAGS", "the payload of this device of a snapshot"), JSON],
    run,
};

fn run(words: &Words) -> Result<(), Failure> {
    let [name] = words.plain("one FILE")?;
    match words.option("--device") {
        None => print(words, &files::read(name, wrapper::MOST_BYTES)?),
        Some(word) => {
            let file = files::read(name, snapshot::MOST_BYTES)?;
            let devices = snapshot::devices(&file).map_err(of_snapshot(&file))?;
            let device = select::device(devices, word)?;
            let payload = device.payload(&file);
            print(words, payload.expect("a record's part stands in the file that it came from"))
                .map_err(|failure| failure.named(&names::device_words(device.key())))
        }
    }
}

fn print(words: &Words, bytes: &[u8]) -> Result<(), Failure> {
    let mut lines = Lines::new(words);
    lines.heading("address bus device function tag offset length position");
    for found in wrapper::controllers(bytes).map_err(of_wrapper(bytes))? {
        let Controller { address, offset, length, position, .. } = found;
        let (bus, device, function) = (found.bus(), found.device(), found.function());
        let tag = shown(&found.tag);
        let object = Object::new("controller")
            .number("address", address)
            .number("bus", bus)
            .number("device", device)
            .number("function", function)
            .text("tag", &tag)
            .number("offset", offset)
            .number("length", length)
            .number("position", position);
        lines.line(
            object,
            format_args!("{address} {bus} {device} {function} {tag} {offset} {length} {position}"),
        );
    }
    lines.print()
}

/// A tag's four bytes as one word: letters as they are, all else as `\x20`.
fn shown(tag: &[u8; 4]) -> String {
    tag.escape_ascii().to_string().replace(' ', "\\x20")
}

#[cfg(test)]
mod tests {
    use super::*;

    #[test]
    fn tags_are_one_word() {
        assert_eq!(shown(b"SATA"), "SATA");
        assert_eq!(shown(b"A \n\xFF"), "A\\x20\\n\\xff");
    }
}
