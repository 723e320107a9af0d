//! The lists: devices, disks, CPUs, MMUs, and the controllers of a wrapper.
//!
//! A list is a u32 count and so many entries. An entry opens with a fixed part that holds its key; a key
//! comes once. What the kinds of entry differ in is asked of [`Kind`]. What may stand behind the last entry
//! is for those to say who read a list.

use crate::answer::{ask, Taken, KEY, LIMIT, RESERVED, SHAPE, VALUE};
use crate::cursor::{u16_at, u32_at, u64_at, Cursor, Output};

const MIB: u64 = 1 << 20;

/// The most bytes of a device's payload, and of a CPU's internal blob.
pub const MOST_PAYLOAD: u64 = 64 * MIB;
/// The most bytes of an image text.
pub const MOST_IMAGE: u32 = 65_536;

/// A kind of list. CPUs and MMUs have the version of their section.
#[derive(Clone, Copy)]
pub enum Kind {
    Devices,
    Disks,
    Cpus(u16),
    Mmus(u16),
    Controllers,
}

/// An entry: its key, its number in the list's own order, where it starts in the input, and its bytes.
#[derive(Clone, Copy)]
pub struct Entry<'a> {
    pub key: u64,
    pub position: u32,
    pub start: usize,
    pub bytes: &'a [u8],
}

/// The entries of a list in key order. Keys are compared as numbers, the first field weighing most.
pub type List<'a> = Vec<Entry<'a>>;

/// Reads the list that the cursor's part begins with, up to the end of its last entry.
pub fn read_list<'a>(kind: Kind, cursor: &mut Cursor<'a>) -> Taken<List<'a>> {
    let count = cursor.u32_to(kind.most())? as usize;
    let mut list = List::with_capacity(count.min(cursor.left() / kind.fixed_length()));
    let walked = read_entries(kind, count, cursor, &mut list);
    // An entry is in the list as soon as its key is read. So a key that comes again in it was there
    // before whatever ended the walk, and one sort finds it.
    list.sort_by_key(|entry| entry.key);
    check_keys(&list)?;
    walked?;
    Ok(list)
}

/// Reads so many entries in file order, and asks everything of them but that keys come once.
fn read_entries<'a>(
    kind: Kind,
    count: usize,
    cursor: &mut Cursor<'a>,
    list: &mut List<'a>,
) -> Taken<()> {
    for at in 0..count {
        let start = cursor.place();
        let bytes = cursor.take(kind.fixed_length() as u64)?;
        kind.check_fixed(bytes, start)?;
        let key = kind.key(bytes);
        list.push(Entry { key, position: at as u32, start, bytes });
        kind.read_rest(bytes, start, cursor)?;
        list[at].bytes = cursor.since(start);
    }
    Ok(())
}

/// Of the entries in key order, those with one key in file order, none has the key of another; else the
/// first in the file that has.
fn check_keys(list: &List) -> Taken<()> {
    let again = list.windows(2).filter(|pair| pair[0].key == pair[1].key);
    match again.map(|pair| pair[1].start).min() {
        Some(start) => ask(false, KEY, start),
        None => Ok(()),
    }
}

impl Kind {
    /// The most entries.
    pub fn most(self) -> u32 {
        match self {
            Kind::Devices => 4096,
            Kind::Disks | Kind::Cpus(_) | Kind::Mmus(_) | Kind::Controllers => 256,
        }
    }

    fn fixed_length(self) -> usize {
        match self {
            Kind::Devices => 16,
            Kind::Disks => 4,
            Kind::Cpus(_) => 8,
            Kind::Mmus(version) => 4 + mmu_length(version),
            Kind::Controllers => 12,
        }
    }

    /// The key of an entry, from its fixed part.
    fn key(self, fixed: &[u8]) -> u64 {
        match self {
            Kind::Devices => device_key(u32_at(fixed, 0), u16_at(fixed, 4), u16_at(fixed, 6)),
            Kind::Disks | Kind::Cpus(_) | Kind::Mmus(_) => u64::from(u32_at(fixed, 0)),
            Kind::Controllers => u64::from(u16_at(fixed, 0)),
        }
    }

    /// What is asked of the fixed part before its key.
    fn check_fixed(self, fixed: &[u8], start: usize) -> Taken<()> {
        match self {
            Kind::Controllers => ask(u16_at(fixed, 2) == 0, RESERVED, start + 2),
            _ => Ok(()),
        }
    }

    /// Reads what follows the fixed part of an entry.
    fn read_rest(self, fixed: &[u8], start: usize, cursor: &mut Cursor) -> Taken<()> {
        match self {
            Kind::Devices => {
                let length = u64_at(fixed, 8);
                ask(length <= MOST_PAYLOAD, LIMIT, start + 8)?;
                cursor.take(length)?;
            }
            Kind::Disks => {
                cursor.text(MOST_IMAGE)?;
                cursor.text(MOST_IMAGE)?;
            }
            Kind::Cpus(version) => {
                let length = u32_at(fixed, 4) as usize;
                ask(is_cpu_length(version, length), SHAPE, start + 4)?;
                read_cpu_state(version, length, start + 4, cursor)?;
                let blob = cursor.u64_to(MOST_PAYLOAD)?;
                cursor.take(blob)?;
            }
            Kind::Mmus(_) => {}
            Kind::Controllers => {
                cursor.take(u64::from(u32_at(fixed, 8)))?;
            }
        }
        Ok(())
    }
}

/// A device's key: id, version, flags, field by field.
pub fn device_key(id: u32, version: u16, flags: u16) -> u64 {
    u64::from(id) << 32 | u64::from(version) << 16 | u64::from(flags)
}

pub fn mmu_length(version: u16) -> usize {
    if version == 1 {
        68
    } else {
        264
    }
}

pub fn is_cpu_length(version: u16, length: usize) -> bool {
    if version == 1 {
        length == 412
    } else {
        length == CPU_PLAIN || length >= CPU_EXTENDED
    }
}

/// A CPU state of version 2 without and with the extension.
const CPU_PLAIN: usize = 1183;
const CPU_EXTENDED: usize = 1191;

/// Reads a CPU state of a length that its version takes, and then asks for its values. A state above 1191 bytes
/// has 1187 and as many as the u32 at 1183 says; else its length is wrong, which is said at `place`.
pub fn read_cpu_state(version: u16, length: usize, place: usize, cursor: &mut Cursor) -> Taken<()> {
    let start = cursor.place();
    let state = cursor.take(length as u64)?;
    if version == 1 {
        return Ok(());
    }
    if length > CPU_EXTENDED {
        ask(length as u64 == 1187 + u64::from(u32_at(state, 1183)), SHAPE, place)?;
    }
    let byte_to = |at: usize, most: u8| ask(state[at] <= most, VALUE, start + at);
    byte_to(144, 3)?;
    byte_to(145, 1)?;
    byte_to(260, 7)?;
    if length == CPU_EXTENDED {
        ask(u32_at(state, 1183) == 4, VALUE, start + 1183)?;
    }
    if length >= CPU_EXTENDED {
        byte_to(1187, 1)?;
        byte_to(1188, 1)?;
        byte_to(1189, 1)?;
    }
    Ok(())
}

/// Writes a record for each entry, in key order; the bytes written.
pub fn write_table(
    list: &List,
    record: fn(Entry) -> [u8; RECORD],
    table: &mut [u8],
) -> Taken<usize> {
    let needed = RECORD * list.len();
    let mut output = Output::with_room(table, needed)?;
    for entry in list {
        output.put(&record(*entry));
    }
    Ok(needed)
}

/// The bytes of a record.
pub const RECORD: usize = 32;

/// A record: eight bytes as they are, two u64, the u32 position and a u32 0.
pub fn record(head: &[u8], second: u64, third: u64, position: u32) -> [u8; RECORD] {
    let mut record = [0; RECORD];
    record[..8].copy_from_slice(head);
    record[8..16].copy_from_slice(&second.to_le_bytes());
    record[16..24].copy_from_slice(&third.to_le_bytes());
    record[24..28].copy_from_slice(&position.to_le_bytes());
    record
}
