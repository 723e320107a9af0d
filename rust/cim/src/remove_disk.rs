//! `cim remove-disk`: a snapshot without one of its disks.

use crate::card::{self, CARD};
use crate::command::{with, Command, JSON, KEEP};
use crate::failure::Failure;
use crate::files;
use crate::words::Words;
use cimbrolau::snapshot;

pub const COMMAND: Command = Command {
    name: "remove-disk",
    usage: &["FILE OUT --id N"],
    about: "write it without one of its disks",
    help: "\
Writes the canonical form of the snapshot without that disk to OUT, which may be FILE. A disk that is
not there is refused as ABSENT. With its last disk a snapshot loses its section of disks.
",
    options: &[with("--id", "N", "the disk's id"), CARD, KEEP, JSON],
    run,
};

fn run(words: &Words) -> Result<(), Failure> {
    let [name, out] = words.plain("FILE and OUT")?;
    let id = words.number("--id", u32::MAX)?;
    let target = card::claim(words, out)?;
    let file = files::read(name, snapshot::MOST_BYTES)?;
    card::edit(words, &file, target, |it| it.remove_disk(id))
}
