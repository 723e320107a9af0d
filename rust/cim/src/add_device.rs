//! `cim add-device`: a snapshot with one device more.

use crate::card::CARD;
use crate::command::{with, Command, JSON, KEEP};
use crate::device::{self, FLAGS, ID, VERSION};
use crate::failure::Failure;
use crate::words::Words;

pub const COMMAND: Command = Command {
    name: "add-device",
    usage: &["FILE OUT --id N --version N --flags N --payload FILE"],
    about: "write it with one device more",
    help: "\
Writes the canonical form of the snapshot with one device more to OUT, which may be FILE. The key of a
device is its id, version and flags; one that is there already is refused as HAVE. Numbers are decimal,
or hexadecimal behind 0x: the id up to 4294967295, version and flags up to 65535.
",
    options: &[
        ID,
        VERSION,
        FLAGS,
        with("--payload", "FILE", "the file with its payload"),
        CARD,
        KEEP,
        JSON,
    ],
    run,
};

fn run(words: &Words) -> Result<(), Failure> {
    device::edit_payload(words, |it, key, payload| it.add_device(key, payload))
}
