//! `cim add-disk`: a snapshot with one disk more.

use crate::card::{self, CARD};
use crate::command::{with, Command, JSON, KEEP};
use crate::failure::Failure;
use crate::files;
use crate::words::Words;
use cimbrolau::snapshot;
use std::os::unix::ffi::OsStrExt;

pub const COMMAND: Command = Command {
    name: "add-disk",
    usage: &["FILE OUT --id N --base TEXT --overlay TEXT"],
    about: "write it with one disk more",
    help: "\
Writes the canonical form of the snapshot with one disk more to OUT, which may be FILE. The texts name
the base and the overlay image; either may be empty (''). A disk that is there already is refused as
HAVE. The id is decimal, or hexadecimal behind 0x, up to 4294967295.
",
    options: &[
        with("--id", "N", "the disk's id"),
        with("--base", "TEXT", "the name of its base image"),
        with("--overlay", "TEXT", "the name of its overlay image"),
        CARD,
        KEEP,
        JSON,
    ],
    run,
};

fn run(words: &Words) -> Result<(), Failure> {
    let [name, out] = words.plain("FILE and OUT")?;
    let id = words.number("--id", u32::MAX)?;
    let base = words.needed("--base")?.as_bytes();
    let overlay = words.needed("--overlay")?.as_bytes();
    let target = card::claim(words, out)?;
    let file = files::read(name, snapshot::MOST_BYTES)?;
    card::edit(words, &file, target, |it| it.add_disk(id, base, overlay))
}
