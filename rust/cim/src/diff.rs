//! `cim diff`: whether two snapshots have the same content, and what differs.

use crate::command::{Command, JSON};
use crate::failure::{of_snapshot, Failure};
use crate::files;
use crate::json::Object;
use crate::lines::Lines;
use crate::names;
use crate::shown::{data, name_of};
use crate::words::Words;
use cimbrolau::snapshot::{self, Section};
use std::collections::HashMap;
use std::ffi::OsStr;

pub const COMMAND: Command = Command {
    name: "diff",
    usage: &["A B"],
    about: "whether two snapshots have the same content",
    help: "\
Prints `same content` and ends with status 0 if the two snapshots have one canonical form: then they hold
the same devices, disks and all else, in whatever order they were saved. Else it prints `other content`, a
line for each section, device, disk, CPU and MMU that only one of them has or that differs, with the first
byte of its payload or state that does, and ends with status 1.
",
    options: &[JSON],
    run,
};

fn run(words: &Words) -> Result<(), Failure> {
    let [one, other] = words.plain("two files, A and B")?;
    if one == "-" && other == "-" {
        return Err(Failure::Usage("only one input can be standard input".into()));
    }
    let [a, b] = [canonical(one)?, canonical(other)?];
    let mut lines = Lines::new(words);
    let same = a == b;
    let verdict = Object::new("diff").truth("same", same);
    lines.line(verdict, format_args!("{} content", if same { "same" } else { "other" }));
    if same {
        return lines.print();
    }
    let mut found = Found { lines, names: [name_of(one), name_of(other)], any: false };
    found.compare(parts(&a)?, parts(&b)?);
    if !found.any {
        // The lists as they stand: what their entries do not show.
        found.compare(sections(&a, IS_READ)?, sections(&b, IS_READ)?);
    }
    if !found.any {
        let object = Object::new("difference").text("difference", "order");
        let order = "sections that the format does not know stand in another order";
        found.lines.line(object, format_args!("{order}"));
    }
    found.lines.print()?;
    Err(Failure::Said(1))
}

/// The canonical form of a file. What was read is let go.
fn canonical(name: &OsStr) -> Result<Vec<u8>, Failure> {
    let file = files::read(name, snapshot::MOST_BYTES)?;
    snapshot::canonical(&file)
        .map_err(of_snapshot(&file))
        .map_err(|failure| failure.named(&name_of(name)))
}

/// A part of a snapshot by what it is called: parts of two files that are called the same are compared.
struct Part<'a> {
    name: String,
    /// What stands in it, each with a word for it: a payload, the texts of a disk, a state.
    holds: Vec<(&'static str, &'a [u8])>,
}

/// Whether calls read a section's entries, so that they are compared one by one.
const IS_READ: fn(&Section) -> bool =
    |section| matches!(names::section(section.id), Some("DEVICES" | "DISKS" | "CPUS" | "MMUS"));

/// The parts of a canonical form: its sections but those whose entries are read, then its devices, disks, CPUs and MMUs.
fn parts(form: &[u8]) -> Result<Vec<Part<'_>>, Failure> {
    let mut parts = sections(form, |section| !IS_READ(section))?;
    for device in snapshot::devices(form)? {
        let holds = vec![("payload", device.payload(form).unwrap_or(&[]))];
        parts.push(Part { name: names::device_words(device.key()), holds });
    }
    for disk in snapshot::disks(form)? {
        let [base, overlay] = [disk.base(form), disk.overlay(form)].map(Option::unwrap_or_default);
        let holds = vec![("base", base.as_bytes()), ("overlay", overlay.as_bytes())];
        parts.push(Part { name: format!("disk {}", disk.id), holds });
    }
    for cpu in snapshot::cpus(form)? {
        let [state, blob] = [cpu.state(form), cpu.blob(form)].map(Option::unwrap_or_default);
        let holds = vec![("state", state), ("blob", blob)];
        parts.push(Part { name: format!("CPU {}", cpu.apic), holds });
    }
    for mmu in snapshot::mmus(form)? {
        let holds = vec![("state", mmu.state(form).unwrap_or_default())];
        parts.push(Part { name: format!("MMU {}", mmu.apic), holds });
    }
    Ok(parts)
}

/// Those sections of a canonical form that are meant.
fn sections(form: &[u8], is_meant: fn(&Section) -> bool) -> Result<Vec<Part<'_>>, Failure> {
    let mut parts = Vec::new();
    let mut earlier: Vec<String> = Vec::new();
    for section in snapshot::sections(form)?.iter().filter(|section| is_meant(section)) {
        let mut name = format!("section {}", names::section_words(section));
        // Sections that the format does not know may repeat.
        let before = earlier.iter().filter(|other| **other == name).count();
        earlier.push(name.clone());
        if before > 0 {
            name += &format!(", number {before} of them");
        }
        parts.push(Part { name, holds: vec![("payload", section.payload(form).unwrap_or(&[]))] });
    }
    Ok(parts)
}

/// The differences found so far.
struct Found {
    lines: Lines,
    names: [String; 2],
    any: bool,
}

impl Found {
    fn compare(&mut self, a: Vec<Part>, b: Vec<Part>) {
        let named = |parts: &[Part]| -> HashMap<String, usize> {
            parts.iter().enumerate().map(|(at, part)| (part.name.clone(), at)).collect()
        };
        let (in_a, in_b) = (named(&a), named(&b));
        for part in &a {
            match in_b.get(&part.name) {
                None => self.alone(part, 0),
                Some(at) => self.differ(part, &b[*at]),
            }
        }
        for part in b.iter().filter(|part| !in_a.contains_key(&part.name)) {
            self.alone(part, 1);
        }
    }

    /// A part that only one file has.
    fn alone(&mut self, part: &Part, side: usize) {
        self.any = true;
        let object = Object::new("difference")
            .text("part", &part.name)
            .text("difference", if side == 0 { "only in A" } else { "only in B" });
        let name = &self.names[side];
        self.lines.line(object, format_args!("{}: only in {name}", part.name));
    }

    /// What differs in two parts of one name.
    fn differ(&mut self, a: &Part, b: &Part) {
        let name = &a.name;
        for ((what, one), (_, other)) in a.holds.iter().zip(&b.holds).filter(|(a, b)| a.1 != b.1) {
            self.any = true;
            let alike = one.iter().zip(*other).position(|(one, other)| one != other);
            let first = alike.unwrap_or_else(|| one.len().min(other.len()));
            let object = Object::new("difference")
                .text("part", name)
                .text("difference", what)
                .number("byte", first as u64)
                .number("length_a", one.len() as u64)
                .number("length_b", other.len() as u64);
            let more = match (*what, one.len() == other.len()) {
                ("base" | "overlay", _) => format!(": {} and {}", data(one), data(other)),
                (_, true) => String::new(),
                (_, false) => format!(" ({} bytes and {})", one.len(), other.len()),
            };
            self.lines
                .line(object, format_args!("{name}: other {what} from its byte {first} on{more}"));
        }
    }
}
