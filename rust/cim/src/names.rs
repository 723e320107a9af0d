//! What people call sections and devices: the names of the snapshot's own documentation.

use cimbrolau::snapshot::{DeviceKey, Section};

const SECTIONS: [(u32, &str); 8] = [
    (1, "META"),
    (2, "CPU"),
    (3, "MMU"),
    (4, "DEVICES"),
    (5, "DISKS"),
    (6, "RAM"),
    (7, "CPUS"),
    (8, "MMUS"),
];

const DEVICES: [(u32, &str); 26] = [
    (1, "PIC"),
    (2, "APIC"),
    (3, "PIT"),
    (4, "RTC"),
    (5, "PCI"),
    (6, "DISK_CONTROLLER"),
    (7, "VGA"),
    (8, "SERIAL"),
    (9, "CPU_INTERNAL"),
    (10, "BIOS"),
    (11, "MEMORY"),
    (12, "USB"),
    (13, "I8042"),
    (14, "PCI_CFG"),
    (15, "PCI_INTX_ROUTER"),
    (16, "ACPI_PM"),
    (17, "HPET"),
    (18, "HDA"),
    (19, "E1000"),
    (20, "NET_STACK"),
    (21, "PLATFORM_INTERRUPTS"),
    (22, "VIRTIO_SND"),
    (23, "VIRTIO_NET"),
    (24, "VIRTIO_INPUT"),
    (25, "AEROGPU"),
    (28, "GPU_VRAM"),
];

fn found(table: &[(u32, &'static str)], id: u32) -> Option<&'static str> {
    table.iter().find(|(known, _)| *known == id).map(|(_, name)| *name)
}

/// The name of a section, if the format knows it.
pub fn section(id: u32) -> Option<&'static str> {
    found(&SECTIONS, id)
}

/// The id of a section of a name.
pub fn section_id(name: &str) -> Option<u32> {
    SECTIONS.iter().find(|(_, known)| known.eq_ignore_ascii_case(name)).map(|(id, _)| *id)
}

/// The name of a device, if it has one.
pub fn device(id: u32) -> Option<&'static str> {
    found(&DEVICES, id)
}

/// A section as people call it: by its name, or by its id.
pub fn section_word(id: u32) -> String {
    section(id).map_or_else(|| format!("id {id}"), str::to_string)
}

/// A section's kind, with its version and its flags.
pub fn section_words(Section { id, version, flags, .. }: &Section) -> String {
    format!("{}, version {version}, flags {flags}", section_word(*id))
}

/// A device's key, with its name if it has one.
pub fn device_words(DeviceKey { id, version, flags }: DeviceKey) -> String {
    let name = device(id).map_or_else(String::new, |name| format!(" {name}"));
    format!("device {id}{name}, version {version}, flags {flags}")
}
