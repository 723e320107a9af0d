//! `cim canon`: the canonical form of a snapshot.

use crate::command::{Command, JSON, KEEP};
use crate::failure::{of_snapshot, Failure};
use crate::files;
use crate::words::Words;
use cimbrolau::snapshot;

pub const COMMAND: Command = Command {
    name: "canon",
    usage: &["FILE OUT"],
    about: "write its canonical form",
    help: "\
Writes the canonical form of the snapshot FILE to OUT: the known sections in ascending id, then the
others as found; devices, disks, CPUs and MMUs in the order of their keys; lists with no entry left
out. OUT may be FILE. A refused file writes nothing.
",
    options: &[KEEP, JSON],
    run,
};

fn run(words: &Words) -> Result<(), Failure> {
    let [name, out] = words.plain("FILE and OUT")?;
    let target = files::claim(words, out)?;
    let file = files::read(name, snapshot::MOST_BYTES)?;
    target.put(&snapshot::canonical(&file).map_err(of_snapshot(&file))?)
}
