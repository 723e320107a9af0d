//! `cim sheet`: the registers of a CPU.

use crate::command::{with, Command, JSON};
use crate::failure::{of_snapshot, Failure};
use crate::files;
use crate::json::Object;
use crate::lines::Lines;
use crate::registers::{flags, CONTROL, GENERAL, MODES, MSRS, SEGMENTS, SYSTEM};
use crate::states::{self, State};
use crate::words::Words;
use cimbrolau::sheet::{access, CpuSheet, MmuSheet, Segment};
use cimbrolau::{snapshot, Refusal};
use std::fmt::Write;

pub const COMMAND: Command = Command {
    name: "sheet",
    usage: &["FILE [--cpu APIC]"],
    about: "the registers of a CPU and of its MMU",
    help: "\
Prints the registers of one CPU and of its MMU, all numbers hexadecimal: the flags by their letters, each
segment with the parts of its access word, a vector register from its highest byte to its lowest. Where the
file has several CPUs, --cpu says which, by its APIC id; `cim show` lists them. States of version 1 have no
sheet.
",
    options: &[with("--cpu", "APIC", "the CPU with this APIC id"), JSON],
    run,
};

fn run(words: &Words) -> Result<(), Failure> {
    let [name] = words.plain("one FILE")?;
    let file = files::read(name, snapshot::MOST_BYTES)?;
    snapshot::check(&file).map_err(of_snapshot(&file))?;
    let cpu = states::one(states::cpus(&file)?, "CPU", words.option("--cpu"))?;
    let mut lines = Lines::new(words);
    let sheet = CpuSheet::read(&file[cpu.range()]).map_err(none_of(&cpu, "CPU"))?;
    lines.line(cpu_object(&cpu, &sheet), format_args!("{}", cpu_text(&cpu, &sheet)));
    if let Some(mmu) = states::mmus(&file)?.into_iter().find(|mmu| mmu.apic == cpu.apic) {
        let sheet = MmuSheet::read(&file[mmu.range()]).map_err(none_of(&mmu, "MMU"))?;
        lines.line(mmu_object(&mmu, &sheet), format_args!("{}", mmu_text(&mmu, &sheet)));
    }
    lines.print()
}

/// A state in a file that is taken has no sheet where it is of version 1.
fn none_of<'a>(state: &'a State, what: &'a str) -> impl FnOnce(Refusal) -> Failure + 'a {
    move |_| {
        let (words, length) = (state.words(what), state.length);
        Failure::Absent(format!(
            "there is no sheet of {words}: a state of {length} bytes is of version 1"
        ))
    }
}

fn heading(state: &State, what: &str) -> String {
    format!("{}, {} bytes at {}", state.words(what), state.length, state.offset)
}

/// So many numbers a line, each behind its name. Writing to a string does not fail.
fn table(text: &mut String, names: &[&str], numbers: &[u64], columns: usize, width: usize) {
    for (names, numbers) in names.chunks(columns).zip(numbers.chunks(columns)) {
        text.push_str("\n ");
        for (name, number) in names.iter().zip(numbers) {
            let _ = write!(text, " {:<width$} {number:016X}", name.to_ascii_uppercase());
        }
    }
}

fn segments(text: &mut String, names: &[&str], segments: &[Segment]) {
    for (name, segment) in names.iter().zip(segments) {
        let Segment { selector, base, limit, access: word } = *segment;
        let parts = access(word);
        let mut set = format!("type {:X}, level {}", parts.kind, parts.level);
        let bits = [
            (parts.present, "present"),
            (parts.long_mode, "long"),
            (parts.size, "size"),
            (parts.granularity, "granularity"),
            (parts.unusable, "unusable"),
        ];
        for (_, word) in bits.iter().filter(|(bit, _)| *bit == 1) {
            let _ = write!(set, ", {word}");
        }
        if parts.rest != 0 {
            let _ = write!(set, ", rest {:X}", parts.rest);
        }
        let name = name.to_ascii_uppercase();
        let _ = write!(
            text,
            "\n  {name:<4} {selector:04X} base {base:016X} limit {limit:08X} access {word:08X}: {set}"
        );
    }
}

/// A register of 16 bytes, from its highest byte to its lowest.
fn vector(bytes: &[u8; 16]) -> String {
    format!("{:032X}", u128::from_le_bytes(*bytes))
}

fn cpu_text(state: &State, sheet: &CpuSheet) -> String {
    let mut text = heading(state, "CPU");
    table(&mut text, &GENERAL, &sheet.gpr, 4, 3);
    let mode = MODES.get(sheet.mode as usize).copied().unwrap_or("?");
    let halted = if sheet.halted { "halted" } else { "running" };
    let _ = write!(text, "\n  RIP {:016X}, {mode} mode, {halted}", sheet.rip);
    let _ = write!(text, "\n  RFLAGS {:016X}: {}", sheet.rflags, flags(sheet.rflags));
    segments(&mut text, &SEGMENTS, &sheet.segments);
    let CpuSheet { fcw, fsw, ftw, top, fop, fip, fdp, fcs, fds, .. } = sheet;
    let _ = write!(
        text,
        "\n  x87 control {fcw:04X} status {fsw:04X} tag {ftw:04X} top {top} opcode {fop:04X} \
         instruction {fcs:04X}:{fip:016X} data {fds:04X}:{fdp:016X}"
    );
    for (index, register) in sheet.st.iter().enumerate() {
        let _ = write!(text, "\n  ST{index} {}", vector(register));
    }
    let _ = write!(text, "\n  MXCSR {:08X}", sheet.mxcsr);
    for (index, register) in sheet.xmm.iter().enumerate() {
        let _ = write!(text, "\n  XMM{index:<2} {}", vector(register));
    }
    if let Some(extension) = sheet.extension {
        let gate = if extension.a20 { "open" } else { "closed" };
        let pending = if extension.irq13 { "pending" } else { "not pending" };
        let _ = write!(text, "\n  A20 {gate}, IRQ 13 {pending}");
        if extension.bios_int_valid {
            let _ = write!(text, ", BIOS interrupt {:02X} pending", extension.bios_int);
        }
    }
    text
}

fn mmu_text(state: &State, sheet: &MmuSheet) -> String {
    let mut text = heading(state, "MMU");
    table(&mut text, &CONTROL, &sheet.cr, 3, 3);
    let debug = ["dr0", "dr1", "dr2", "dr3", "dr4", "dr5", "dr6", "dr7"];
    table(&mut text, &debug, &sheet.dr, 4, 3);
    table(&mut text, &MSRS, &sheet.msr, 2, 14);
    let _ = write!(text, "\n  GDTR base {:016X} limit {:04X}", sheet.gdtr_base, sheet.gdtr_limit);
    let _ = write!(text, "\n  IDTR base {:016X} limit {:04X}", sheet.idtr_base, sheet.idtr_limit);
    segments(&mut text, &SYSTEM, &sheet.segments);
    text
}

/// An object that begins with where the state stands.
fn object(state: &State, what: &str) -> Object {
    let object = Object::new(what);
    let object = match state.apic {
        Some(apic) => object.number("apic", apic),
        None => object,
    };
    object.number("offset", state.offset).number("length", state.length)
}

fn with_segments(mut object: Object, names: &[&str], segments: &[Segment]) -> Object {
    for (name, segment) in names.iter().zip(segments) {
        let parts = Object::new("segment")
            .number("selector", segment.selector)
            .number("base", segment.base)
            .number("limit", segment.limit)
            .number("access", segment.access);
        object = object.object(name, parts);
    }
    object
}

fn cpu_object(state: &State, sheet: &CpuSheet) -> Object {
    let mut object = object(state, "cpu_sheet");
    for (name, number) in GENERAL.iter().zip(sheet.gpr) {
        object = object.number(name, number);
    }
    object = object
        .number("rip", sheet.rip)
        .number("rflags", sheet.rflags)
        .number("mode", sheet.mode)
        .truth("halted", sheet.halted);
    object = with_segments(object, &SEGMENTS, &sheet.segments)
        .number("fcw", sheet.fcw)
        .number("fsw", sheet.fsw)
        .number("ftw", sheet.ftw)
        .number("top", sheet.top)
        .number("fop", sheet.fop)
        .number("fip", sheet.fip)
        .number("fdp", sheet.fdp)
        .number("fcs", sheet.fcs)
        .number("fds", sheet.fds);
    for (index, register) in sheet.st.iter().enumerate() {
        object = object.text(&format!("st{index}"), &vector(register));
    }
    object = object.number("mxcsr", sheet.mxcsr);
    for (index, register) in sheet.xmm.iter().enumerate() {
        object = object.text(&format!("xmm{index}"), &vector(register));
    }
    match sheet.extension {
        Some(extension) => object
            .truth("a20", extension.a20)
            .truth("irq13", extension.irq13)
            .truth("bios_int_valid", extension.bios_int_valid)
            .number("bios_int", extension.bios_int),
        None => object,
    }
}

fn mmu_object(state: &State, sheet: &MmuSheet) -> Object {
    let mut object = object(state, "mmu_sheet");
    for (name, number) in CONTROL.iter().zip(sheet.cr) {
        object = object.number(name, number);
    }
    for (index, number) in sheet.dr.iter().enumerate() {
        object = object.number(&format!("dr{index}"), *number);
    }
    for (name, number) in MSRS.iter().zip(sheet.msr) {
        object = object.number(name, number);
    }
    object = object
        .number("gdtr_base", sheet.gdtr_base)
        .number("gdtr_limit", sheet.gdtr_limit)
        .number("idtr_base", sheet.idtr_base)
        .number("idtr_limit", sheet.idtr_limit);
    with_segments(object, &SYSTEM, &sheet.segments)
}
