//! `cim card`, and what the edits share: a snapshot opened, edited and written, with its card kept.

use crate::command::{only, Choice, Command, JSON};
use crate::failure::{of_snapshot, Failure};
use crate::files::{self, Target};
use crate::json::Object;
use crate::lines::Lines;
use crate::words::Words;
use cimbrolau::{snapshot, Card, Snapshot};
use std::ffi::OsStr;

pub const COMMAND: Command = Command {
    name: "card",
    usage: &["FILE"],
    about: "the sizes of its canonical form",
    help: "\
Prints the card of the snapshot's canonical form: its length, how many sections it has, how many
devices, and the bytes of their payloads together:

  424 bytes, 5 sections, 4 devices with 52 bytes

The commands that add, remove and replace print the card of what they write, with --card.
",
    options: &[JSON],
    run,
};

/// The option of the edits.
pub const CARD: Choice = only("--card", "print the card of what is written");

fn run(words: &Words) -> Result<(), Failure> {
    let [name] = words.plain("one FILE")?;
    let file = files::read(name, snapshot::MOST_BYTES)?;
    tell(words, snapshot::open(&file).map_err(of_snapshot(&file))?)
}

fn tell(words: &Words, card: Card) -> Result<(), Failure> {
    let Card { length, sections, devices, payloads } = card;
    let mut lines = Lines::new(words);
    let object = Object::new("card").number("length", length).number("sections", sections);
    let object = object.number("devices", devices).number("payloads", payloads);
    let many =
        |count: u64, one: &str| format!("{count} {one}{}", if count == 1 { "" } else { "s" });
    let (bytes, sections) = (many(length, "byte"), many(sections, "section"));
    let (devices, payloads) = (many(devices, "device"), many(payloads, "byte"));
    lines.line(object, format_args!("{bytes}, {sections}, {devices} with {payloads}"));
    lines.print()
}

/// Claims the output of an edit. The card is printed where `-` would be written.
pub fn claim<'a>(words: &'a Words, out: &'a OsStr) -> Result<Target<'a>, Failure> {
    if words.has(&CARD) && out == "-" {
        return Err(Failure::Usage("--card is printed on standard output, which is OUT".into()));
    }
    files::claim(words, out)
}

/// Opens a snapshot, edits it and writes it; with `--card` its card is printed behind that. What the edit refuses is no fault of
/// the snapshot, which is taken by then.
pub fn edit<E: Into<Failure>>(
    words: &Words,
    file: &[u8],
    target: Target,
    edit: impl FnOnce(&mut Snapshot) -> Result<(), E>,
) -> Result<(), Failure> {
    let mut snapshot = Snapshot::open(file).map_err(of_snapshot(file))?;
    edit(&mut snapshot).map_err(Into::into)?;
    target.put(snapshot.bytes())?;
    match words.has(&CARD) {
        true => tell(words, snapshot.card()),
        false => Ok(()),
    }
}
