//! `cim ready`: one yes or no before a panel is switched, and for a no a line for each thing that is missing.

use crate::command::{Command, JSON};
use crate::failure::{of_snapshot, Failure};
use crate::files;
use crate::json::Object;
use crate::lines::Lines;
use crate::words::Words;
use cimbrolau::ready::{self, id::DISK_CONTROLLER, Missing};
use cimbrolau::{snapshot, wrapper, Refusal};

pub const COMMAND: Command = Command {
    name: "ready",
    usage: &["FILE"],
    about: "whether it is ready to restore, or what is missing",
    help: "\
Prints `ready` if the snapshot has all that a panel needs to be restored: an interrupt controller (2 or
21), PIT 3, RTC 4, i8042 13, ACPI PM 16, HPET 17, exactly one device with id 6, whose payload is an
accepted wrapper, and the disks 0 and 1, whose paths may be empty. Versions and flags do not matter.

Else it prints `not ready` and a line for each thing that is missing, the devices before the disks,
and ends with status 1:

  not ready
  device 6: its wrapper is refused 13 KEY at 40
  device 17 HPET is missing
  disk 0 is missing

The place behind a refused wrapper counts from the wrapper's start. A refused snapshot is told as by
`cim check`, on standard error.
",
    options: &[JSON],
    run,
};

fn run(words: &Words) -> Result<(), Failure> {
    let [name] = words.plain("one FILE")?;
    let file = files::read(name, snapshot::MOST_BYTES)?;
    let missing = ready::missing(&file).map_err(of_snapshot(&file))?;
    let mut lines = Lines::new(words);
    let is_ready = missing.is_empty();
    let verdict = if is_ready { "ready" } else { "not ready" };
    lines.line(Object::new("ready").truth("ready", is_ready), format_args!("{verdict}"));
    for thing in missing {
        let told = line(&file, thing)?;
        let (part, id) = match thing {
            Missing::Device(id) => ("device", id),
            Missing::Disk(id) => ("disk", id),
        };
        let object = Object::new("missing").text("part", part).number("id", id).text("why", &told);
        lines.line(object, format_args!("{told}"));
    }
    lines.print()?;
    if is_ready {
        Ok(())
    } else {
        Err(Failure::Said(1))
    }
}

/// What is missing, in words.
fn line(file: &[u8], thing: Missing) -> Result<String, Refusal> {
    match thing {
        Missing::Device(DISK_CONTROLLER) => storage(file),
        other => Ok(format!("{other} is missing")),
    }
}

/// Why device 6 counts as missing: there is none, there is more than one, or its wrapper is refused.
fn storage(file: &[u8]) -> Result<String, Refusal> {
    let mut entries = snapshot::devices(file)?;
    entries.retain(|device| device.id == DISK_CONTROLLER);
    Ok(match entries[..] {
        [] => format!("{} is missing", Missing::Device(DISK_CONTROLLER)),
        [one] => match wrapper::check(one.payload(file).unwrap_or_default()) {
            Err(Refusal { kind, place }) => {
                let (number, name) = (kind.number(), kind.name());
                format!("device 6: its wrapper is refused {number} {name} at {place}")
            }
            Ok(()) => unreachable!("an accepted wrapper is not missing"),
        },
        _ => format!("device 6: {} entries have this id, where one is wanted", entries.len()),
    })
}
