//! `cim show`: a snapshot for people.

use crate::command::{Command, JSON};
use crate::failure::{of_snapshot, Failure};
use crate::files;
use crate::json::Object;
use crate::lines::Lines;
use crate::list::{device_object, disk_object, section_object};
use crate::names;
use crate::registers::MODES;
use crate::shown::{name_of, size};
use crate::words::Words;
use cimbrolau::sheet::{CpuSheet, MmuSheet};
use cimbrolau::snapshot::{self, Section};

pub const COMMAND: Command = Command {
    name: "show",
    usage: &["FILE"],
    about: "what is in it, for people",
    help: "\
Prints the file's length, and whether it is in canonical form; then each section with its name, its size
and its share of the file, in the order of the file, and below it what it holds: what META says, devices by
their names, disks with the paths of their images, CPUs and MMUs by their APIC ids. Sections and entries
are counted from 0; an entry's number is its place in the file's own list. A section of id 0 with no byte
is what 16 bytes of 0 read as: zeros at the end of a file, as a copy that was too long leaves them, are
taken as such sections, up to 64 in all.

For scripts there are `cim list` and --json.
",
    options: &[JSON],
    run,
};

fn run(words: &Words) -> Result<(), Failure> {
    let [name] = words.plain("one FILE")?;
    let file = files::read(name, snapshot::MOST_BYTES)?;
    let sections = snapshot::sections(&file).map_err(of_snapshot(&file))?;
    let mut lines = Lines::new(words);
    whole(&mut lines, &name_of(name), &file, sections.len());
    for section in &sections {
        frame(&mut lines, section, file.len() as u64);
        inside(&mut lines, section, &file)?;
    }
    lines.print()
}

/// The line about the whole file. Where there is no memory for the canonical form, nothing is said of it.
fn whole(lines: &mut Lines, name: &str, file: &[u8], sections: usize) {
    let bytes = file.len() as u64;
    let mut object = Object::new("snapshot")
        .text("file", name)
        .number("bytes", bytes)
        .number("sections", sections as u64);
    let mut form = "";
    if let Ok(canonical) = snapshot::canonical(file) {
        let is_canonical = canonical == file;
        object = object.truth("canonical", is_canonical);
        form = if is_canonical { ", in canonical form" } else { ", not in canonical form" };
    }
    let several = if sections == 1 { "section" } else { "sections" };
    lines.line(object, format_args!("{name}: {}, {sections} {several}{form}", size(bytes)));
}

/// The line about a section: what it is, its size, and its share of the file, header and all.
fn frame(lines: &mut Lines, section: &Section, whole: u64) {
    let Section { id, version, flags, offset, length, position } = *section;
    let mut what = names::section_word(id);
    if id == 0 && length == 0 {
        what += " (zeros)";
    }
    let mut kind = format!("version {version}");
    if flags != 0 {
        kind += &format!(", flags {flags}");
    }
    let share = (length + 16) as f64 / whole as f64;
    let bar = "#".repeat((share * 20.0).round() as usize);
    let percent = (share * 100.0).round();
    let size = size(length);
    let object = section_object(section).perhaps("name", names::section(id));
    lines.line(
        object,
        format_args!(
            "{position:3}  {what:<12} {kind:<19} {size:>11} at {offset:<10} {percent:>3}% {bar}"
        ),
    );
}

/// The lines about what a section holds: an arm for each kind of section that a call reads.
fn inside(lines: &mut Lines, section: &Section, file: &[u8]) -> Result<(), Failure> {
    match names::section(section.id) {
        Some("DEVICES") => devices(lines, file),
        Some("DISKS") => disks(lines, file),
        Some("META") => meta(lines, file),
        Some("CPUS") => cpus(lines, file),
        Some("MMUS") => mmus(lines, file),
        Some("CPU") => one_cpu(lines, section, file),
        Some("MMU") => one_mmu(lines, section, file),
        _ => Ok(()),
    }
}

fn devices(lines: &mut Lines, file: &[u8]) -> Result<(), Failure> {
    for device in snapshot::devices(file)? {
        let key = names::device_words(device.key());
        let (size, offset, position) = (size(device.length), device.offset, device.position);
        let object = device_object(&device).perhaps("name", names::device(device.id));
        lines.line(object, format_args!("     {key}: {size} at {offset}, entry {position}"));
    }
    Ok(())
}

fn disks(lines: &mut Lines, file: &[u8]) -> Result<(), Failure> {
    for disk in snapshot::disks(file)? {
        let [base, overlay] = [disk.base(file), disk.overlay(file)].map(Option::unwrap_or_default);
        let (id, position) = (disk.id, disk.position);
        let object = disk_object(&disk).text("base", base).text("overlay", overlay);
        lines.line(
            object,
            format_args!("     disk {id}: base {base:?}, overlay {overlay:?}, entry {position}"),
        );
    }
    Ok(())
}

/// A time in milliseconds since 1970 as a date, in the calendar that is used today.
fn date(milliseconds: u64) -> String {
    let (days, rest) = (milliseconds / 86_400_000, milliseconds % 86_400_000);
    // Counted from 1 March of year 0, in rounds of 400 years, which are 146,097 days.
    let (round, day) = ((days + 719_468) / 146_097, (days + 719_468) % 146_097);
    let year = (day - day / 1460 + day / 36_524 - day / 146_096) / 365;
    let of_year = day - (365 * year + year / 4 - year / 100);
    let march = (5 * of_year + 2) / 153;
    let (month, day) =
        (if march < 10 { march + 3 } else { march - 9 }, of_year - (153 * march + 2) / 5 + 1);
    let year = 400 * round + year + u64::from(month <= 2);
    let (hour, minute, second) = (rest / 3_600_000, rest / 60_000 % 60, rest / 1000 % 60);
    format!(
        "{year:04}-{month:02}-{day:02} {hour:02}:{minute:02}:{second:02}.{:03} UTC",
        rest % 1000
    )
}

fn meta(lines: &mut Lines, file: &[u8]) -> Result<(), Failure> {
    let Some(meta) = snapshot::meta(file)? else { return Ok(()) };
    let mut object = Object::new("meta").number("id", meta.id).number("time", meta.time);
    let mut words = format!("snapshot {}", meta.id);
    match meta.parent {
        Some(parent) => {
            object = object.number("parent", parent);
            words += &format!(", parent {parent}");
        }
        None => words += ", no parent",
    }
    words += &format!(", {}", date(meta.time));
    if let Some(label) = meta.label(file) {
        object = object.text("label", label);
        words += &format!(", label {label:?}");
    }
    lines.line(object, format_args!("     {words}"));
    Ok(())
}

/// What a CPU does, where its state has a sheet.
fn doing(state: Option<&[u8]>) -> String {
    let Some(sheet) = state.and_then(|state| CpuSheet::read(state).ok()) else {
        return String::new();
    };
    let mode = MODES.get(sheet.mode as usize).copied().unwrap_or("?");
    let halted = if sheet.halted { ", halted" } else { "" };
    format!(", {mode} mode{halted}, RIP {:X}", sheet.rip)
}

/// Where an MMU's page tables stand, where its state has a sheet.
fn mapping(state: Option<&[u8]>) -> String {
    let sheet = state.and_then(|state| MmuSheet::read(state).ok());
    sheet.map_or_else(String::new, |sheet| format!(", CR3 {:X}", sheet.cr[2]))
}

fn cpus(lines: &mut Lines, file: &[u8]) -> Result<(), Failure> {
    for cpu in snapshot::cpus(file)? {
        let (apic, offset, position) = (cpu.apic, cpu.state_offset, cpu.position);
        let (state, blob) = (size(cpu.state_length.into()), size(cpu.blob_length));
        let doing = doing(cpu.state(file));
        let object = Object::new("cpu")
            .number("apic", apic)
            .number("state_offset", offset)
            .number("state_length", cpu.state_length)
            .number("blob_length", cpu.blob_length)
            .number("position", position);
        lines.line(
            object,
            format_args!(
                "     CPU {apic}: {state} at {offset}{doing}, blob {blob}, entry {position}"
            ),
        );
    }
    Ok(())
}

fn mmus(lines: &mut Lines, file: &[u8]) -> Result<(), Failure> {
    for mmu in snapshot::mmus(file)? {
        let (apic, offset, position) = (mmu.apic, mmu.state_offset, mmu.position);
        let (state, mapping) = (size(mmu.state_length.into()), mapping(mmu.state(file)));
        let object = Object::new("mmu")
            .number("apic", apic)
            .number("state_offset", offset)
            .number("state_length", mmu.state_length)
            .number("position", position);
        lines.line(
            object,
            format_args!("     MMU {apic}: {state} at {offset}{mapping}, entry {position}"),
        );
    }
    Ok(())
}

fn one_cpu(lines: &mut Lines, section: &Section, file: &[u8]) -> Result<(), Failure> {
    let (offset, length) = (section.offset, section.length);
    let object = Object::new("cpu").number("state_offset", offset).number("state_length", length);
    let doing = doing(section.payload(file));
    lines.line(object, format_args!("     CPU: {} at {offset}{doing}", size(length)));
    Ok(())
}

fn one_mmu(lines: &mut Lines, section: &Section, file: &[u8]) -> Result<(), Failure> {
    let (offset, length) = (section.offset, section.length);
    let object = Object::new("mmu").number("state_offset", offset).number("state_length", length);
    let mapping = mapping(section.payload(file));
    lines.line(object, format_args!("     MMU: {} at {offset}{mapping}", size(length)));
    Ok(())
}

#[cfg(test)]
mod tests {
    use super::date;

    #[test]
    fn dates() {
        for (milliseconds, said) in [
            (0, "1970-01-01 00:00:00.000 UTC"),
            (951_782_399_999, "2000-02-28 23:59:59.999 UTC"),
            (951_782_400_000, "2000-02-29 00:00:00.000 UTC"),
            (951_868_800_000, "2000-03-01 00:00:00.000 UTC"),
            (1_709_164_800_000, "2024-02-29 00:00:00.000 UTC"),
            (4_107_542_400_000, "2100-03-01 00:00:00.000 UTC"),
        ] {
            assert_eq!(date(milliseconds), said);
        }
        assert!(date(u64::MAX).ends_with(" UTC"));
    }
}
