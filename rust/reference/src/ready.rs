//! Ready to restore? What a panel needs of a snapshot before it is switched, and what of it is missing.

use crate::answer::Taken;
use crate::cursor::{u32_at, Output};
use crate::list::{Entry, List};
use crate::snapshot::devices_and_disks;
use crate::wrapper::wrapper_check;

/// The answer: a number and a place, and 1 for a yes.
#[repr(C)]
#[derive(Clone, Copy, Debug, PartialEq, Eq)]
pub struct Readiness {
    pub number: u32,
    pub yes: u32,
    pub place: u64,
}

/// A pair of the list: 1 and the id of a device, 2 and the id of a disk.
type Pair = (u32, u32);

const DEVICE: u32 = 1;
const DISK: u32 = 2;

const PIT: u32 = 3;
const RTC: u32 = 4;
const DISK_CONTROLLER: u32 = 6;
const I8042: u32 = 13;
const ACPI_PM: u32 = 16;
const HPET: u32 = 17;
/// Of the two ids of an interrupt controller the second stands for both.
const APIC: u32 = 2;
const PLATFORM_INTERRUPTS: u32 = 21;

/// Writes the pairs of what is missing.
pub fn ready(file: &[u8], list: &mut [u8]) -> Readiness {
    match missing_in(file).and_then(|missing| write_pairs(&missing, list)) {
        Ok(written) => Readiness { number: 0, yes: u32::from(written == 0), place: written as u64 },
        Err(refusal) => Readiness { number: refusal.number, yes: 0, place: refusal.place },
    }
}

fn missing_in(file: &[u8]) -> Taken<Vec<Pair>> {
    let (devices, disks) = devices_and_disks(file)?;
    let has_device = |id| !with_id(&devices, id).is_empty();
    let has_disk = |id| !with_id(&disks, id).is_empty();
    let needed = [
        (has_device(PIT), (DEVICE, PIT)),
        (has_device(RTC), (DEVICE, RTC)),
        (has_one_wrapper(&devices), (DEVICE, DISK_CONTROLLER)),
        (has_device(I8042), (DEVICE, I8042)),
        (has_device(ACPI_PM), (DEVICE, ACPI_PM)),
        (has_device(HPET), (DEVICE, HPET)),
        (has_device(APIC) || has_device(PLATFORM_INTERRUPTS), (DEVICE, PLATFORM_INTERRUPTS)),
        (has_disk(0), (DISK, 0)),
        (has_disk(1), (DISK, 1)),
    ];
    Ok(needed.into_iter().filter(|(there, _)| !there).map(|(_, pair)| pair).collect())
}

/// The entries with an id, which stand side by side in key order: the id is the first field of a key.
fn with_id<'l, 'a>(list: &'l List<'a>, id: u32) -> &'l [Entry<'a>] {
    let id_of = |entry: &Entry| u32_at(entry.bytes, 0);
    let start = list.partition_point(|entry| id_of(entry) < id);
    let count = list[start..].partition_point(|entry| id_of(entry) == id);
    &list[start..start + count]
}

/// Exactly one entry, whatever its version and flags, and its payload an accepted wrapper.
fn has_one_wrapper(devices: &List) -> bool {
    match with_id(devices, DISK_CONTROLLER) {
        [one] => wrapper_check(&one.bytes[16..]).number == 0,
        _ => false,
    }
}

fn write_pairs(pairs: &[Pair], list: &mut [u8]) -> Taken<usize> {
    let needed = 8 * pairs.len();
    let mut output = Output::with_room(list, needed)?;
    for (part, id) in pairs {
        output.put(&part.to_le_bytes());
        output.put(&id.to_le_bytes());
    }
    Ok(needed)
}
