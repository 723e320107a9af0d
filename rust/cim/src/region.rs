//! `cim region`: the queues of a region of rings, and what waits in them.

use crate::command::{Command, JSON};
use crate::failure::{of_input, Failure, Told as Refused};
use crate::files;
use crate::json::Object;
use crate::lines::Lines;
use crate::message::Told;
use crate::place;
use crate::shown::hex;
use crate::words::Words;
use cimbrolau::region::{self, Cursors, Queue, Region};
use cimbrolau::{Kind, Refusal};

pub const COMMAND: Command = Command {
    name: "region",
    usage: &["FILE"],
    about: "the queues of a region of rings, and what waits in them",
    help: "\
Checks a region of shared memory that was saved to a file, and prints a heading and a line for each
queue: its number and kind, the offset of its ring, its capacity, its cursors, signed as hosts show
them, and the bytes in use, from head to reserve. Then a line for each record that waits, in the order
in which it would be taken: its queue, the offset and the length of its payload, and the message that
it reads as, or why it is none and its bytes. Places behind the message's name count from its start.

  queue kind offset capacity head reserve commit used
  record QUEUE OFFSET LENGTH MESSAGE
  record QUEUE OFFSET LENGTH refused NUMBER NAME at PLACE: WHY; bytes HEX
  record QUEUE refused 24 RECORD at 0: WHY

The last of these ends its queue: what is committed there is no record. The file stays as it is. The
whole region is checked first; a refused one prints no line.
",
    options: &[JSON],
    run,
};

fn run(words: &Words) -> Result<(), Failure> {
    let [name] = words.plain("one FILE")?;
    // Records are taken from what was read; the file stays.
    let mut bytes = files::read(name, region::MOST_BYTES)?;
    if let Err(refusal) = region::check(&bytes) {
        let lies = place::in_region(&mut bytes, refusal);
        return Err(of_input(&bytes)(refusal).lying(lies));
    }
    let mut region = Region::open(&mut bytes)?;
    let mut lines = Lines::new(words);
    lines.heading("queue kind offset capacity head reserve commit used");
    let queues = (0u32..).zip(region.queues());
    for (number, Queue { kind, offset, capacity }) in queues.clone() {
        let cursors = region.report(number)?;
        let Cursors { head, reserve, commit } = cursors;
        let used = cursors.in_use();
        let object = Object::new("queue")
            .number("queue", number)
            .number("kind", kind)
            .number("offset", offset)
            .number("capacity", capacity)
            .signed("head", head)
            .signed("reserve", reserve)
            .signed("commit", commit)
            .number("used", used);
        lines.line(
            object,
            format_args!("{number} {kind} {offset} {capacity} {head} {reserve} {commit} {used}"),
        );
    }
    for (number, _) in queues {
        records(&mut region, number, &mut lines)?;
    }
    lines.print()
}

/// Adds a line for each record that waits in a queue, and one for what cannot be taken as a record.
fn records(region: &mut Region, queue: u32, lines: &mut Lines) -> Result<(), Failure> {
    let object = || Object::new("record").number("queue", queue);
    loop {
        let place = match region.ring(queue)?.take_place() {
            Ok(place) => place,
            Err(Refusal { kind: Kind::Empty, .. }) => return Ok(()),
            Err(refusal) => {
                let object = object().object("refused", refused(refusal));
                lines.line(object, format_args!("record {queue} refused {refusal}"));
                return Ok(());
            }
        };
        let (start, length) = (place.start, place.len());
        let payload = &region.bytes()[place];
        let object = object().number("offset", start as u64).number("length", length as u64);
        match Told::of(payload) {
            Ok(Told { words, object: message }) => lines.line(
                object.object("message", message),
                format_args!("record {queue} {start} {length} {words}"),
            ),
            Err(refusal) => {
                let bytes = hex(payload);
                lines.line(
                    object.object("refused", refused(refusal)).text("hex", bytes.trim_start()),
                    format_args!("record {queue} {start} {length} refused {refusal}; bytes{bytes}"),
                );
            }
        }
    }
}

/// A refusal as an object.
fn refused(refusal: Refusal) -> Object {
    Refused { of: None, line: None, refusal, lies: None, bytes: None }
        .members(Object::new("refused"))
}
