//! `cim remove-device`: a snapshot without one of its devices.

use crate::card::{self, CARD};
use crate::command::{Command, JSON, KEEP};
use crate::device::{self, FLAGS, ID, VERSION};
use crate::failure::Failure;
use crate::files;
use crate::words::Words;
use cimbrolau::snapshot;

pub const COMMAND: Command = Command {
    name: "remove-device",
    usage: &["FILE OUT --id N --version N --flags N"],
    about: "write it without one of its devices",
    help: "\
Writes the canonical form of the snapshot without that device to OUT, which may be FILE. The key of a
device is its id, version and flags, all three; one that is not there is refused as ABSENT. With its
last device a snapshot loses its section of devices. Numbers are decimal, or hexadecimal behind 0x.
",
    options: &[
        ID,
        VERSION,
        FLAGS,
        CARD,
        KEEP,
        JSON,
    ],
    run,
};

fn run(words: &Words) -> Result<(), Failure> {
    let [name, out] = words.plain("FILE and OUT")?;
    let key = device::key(words)?;
    let target = card::claim(words, out)?;
    let file = files::read(name, snapshot::MOST_BYTES)?;
    card::edit(words, &file, target, |it| it.remove_device(key))
}
