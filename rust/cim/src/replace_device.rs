//! `cim replace-device`: a snapshot with another payload in one of its devices.

use crate::card::CARD;
use crate::command::{with, Command, JSON, KEEP};
use crate::device::{self, FLAGS, ID, VERSION};
use crate::failure::Failure;
use crate::words::Words;

pub const COMMAND: Command = Command {
    name: "replace-device",
    usage: &["FILE OUT --id N --version N --flags N --payload FILE"],
    about: "write it with another payload in a device",
    help: "\
Writes the canonical form of the snapshot with another payload in one of its devices to OUT, which may
be FILE. The key of a device is its id, version and flags, and stays; one that is not there is refused as
ABSENT. Numbers are decimal, or hexadecimal behind 0x.
",
    options: &[
        ID,
        VERSION,
        FLAGS,
        with("--payload", "FILE", "the file with its new payload"),
        CARD,
        KEEP,
        JSON,
    ],
    run,
};

fn run(words: &Words) -> Result<(), Failure> {
    device::edit_payload(words, |it, key, payload| it.replace_device(key, payload))
}
