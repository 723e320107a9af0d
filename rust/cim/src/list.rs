//! `cim list`: the sections, devices and disks of a snapshot, as document 01 lists them.

use crate::command::{Command, JSON};
use crate::failure::{of_snapshot, Failure};
use crate::files;
use crate::json::Object;
use crate::lines::Lines;
use crate::words::Words;
use cimbrolau::snapshot::{self, Device, Disk, Section};

pub const COMMAND: Command = Command {
    name: "list",
    usage: &["FILE"],
    about: "its sections, devices and disks",
    help: "\
Prints a heading and a line for each section, in the order of the file; then a line for each device,
in the order of their keys, and for each disk, in the order of their ids. Numbers are decimal, offsets
count from the start of the file.

  id version flags offset length
  device ID VERSION FLAGS OFFSET LENGTH POSITION
  disk ID BASE-OFFSET BASE-LENGTH OVERLAY-LENGTH POSITION

A position is the entry's number in the file's own list, from 0.

The whole file is checked first; a refused file prints no line.
",
    options: &[JSON],
    run,
};

fn run(words: &Words) -> Result<(), Failure> {
    let [name] = words.plain("one FILE")?;
    let file = files::read(name, snapshot::MOST_BYTES)?;
    let mut lines = Lines::new(words);
    lines.heading("id version flags offset length");
    for section in snapshot::sections(&file).map_err(of_snapshot(&file))? {
        let Section { id, version, flags, offset, length, .. } = section;
        lines.line(
            section_object(&section),
            format_args!("{id} {version} {flags} {offset} {length}"),
        );
    }
    for device in snapshot::devices(&file)? {
        let Device { id, version, flags, offset, length, position } = device;
        lines.line(
            device_object(&device),
            format_args!("device {id} {version} {flags} {offset} {length} {position}"),
        );
    }
    for disk in snapshot::disks(&file)? {
        let Disk { id, base_offset, base_length, overlay_length, position } = disk;
        lines.line(
            disk_object(&disk),
            format_args!("disk {id} {base_offset} {base_length} {overlay_length} {position}"),
        );
    }
    lines.print()
}

/// A section's record as an object.
pub fn section_object(section: &Section) -> Object {
    Object::new("section")
        .number("id", section.id)
        .number("version", section.version)
        .number("flags", section.flags)
        .number("offset", section.offset)
        .number("length", section.length)
        .number("position", section.position)
}

/// A device's record as an object.
pub fn device_object(device: &Device) -> Object {
    Object::new("device")
        .number("id", device.id)
        .number("version", device.version)
        .number("flags", device.flags)
        .number("offset", device.offset)
        .number("length", device.length)
        .number("position", device.position)
}

/// A disk's record as an object.
pub fn disk_object(disk: &Disk) -> Object {
    Object::new("disk")
        .number("id", disk.id)
        .number("base_offset", disk.base_offset)
        .number("base_length", disk.base_length)
        .number("overlay_length", disk.overlay_length)
        .number("position", disk.position)
}
