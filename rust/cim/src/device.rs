//! A device on the command line: its key, and its payload in a file.

use crate::card;
use crate::command::{with, Choice};
use crate::failure::Failure;
use crate::files;
use crate::words::Words;
use cimbrolau::{snapshot, Snapshot};

pub const ID: Choice = with("--id", "N", "the device's id");
pub const VERSION: Choice = with("--version", "N", "the version of its payload");
pub const FLAGS: Choice = with("--flags", "N", "its flags");

/// Its key: id, version and flags.
pub fn key(words: &Words) -> Result<(u32, u16, u16), Failure> {
    let id = words.number("--id", u32::MAX)?;
    let version = words.number("--version", u16::MAX.into())? as u16;
    let flags = words.number("--flags", u16::MAX.into())? as u16;
    Ok((id, version, flags))
}

/// An edit of FILE that brings a payload, written to OUT.
pub fn edit_payload<E: Into<Failure>>(
    words: &Words,
    edit: impl FnOnce(&mut Snapshot, (u32, u16, u16), &[u8]) -> Result<(), E>,
) -> Result<(), Failure> {
    let [name, out] = words.plain("FILE and OUT")?;
    let key = key(words)?;
    let payload = words.needed("--payload")?;
    if name == "-" && payload == "-" {
        return Err(Failure::Usage("only one input can be standard input".into()));
    }
    let target = card::claim(words, out)?;
    let file = files::read(name, snapshot::MOST_BYTES)?;
    let payload = files::read(payload, snapshot::MOST_PAYLOAD_BYTES)?;
    card::edit(words, &file, target, |it| edit(it, key, &payload))
}
