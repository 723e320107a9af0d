//! A plain map beside the library: what names hold which payload or which paths, and all else in the file.
//!
//! It knows dictionaries and lengths. An edit is answered by looking up and counting, and a refused one changes
//! nothing; the file that shows the map is put together from its entries in the order of their keys.

use std::collections::btree_map::Entry;
use std::collections::BTreeMap;

use reference::answer::{ABSENT, HAVE, LIMIT, MANY, SIZE, TEXT};
use reference::Answer;

use crate::make::{DeviceKey, Made};

const DEVICES: u32 = 4;
const DISKS: u32 = 5;
/// The last id that is known: sections with other ids stand behind the known ones.
const LAST_KNOWN: u32 = 8;
const MIB: usize = 1 << 20;

/// One edit of a file, with what it brings.
pub enum Edit {
    AddDevice(DeviceKey, Vec<u8>),
    AddDisk(u32, Vec<u8>, Vec<u8>),
    RemoveDevice(DeviceKey),
    RemoveDisk(u32),
    ReplaceDevice(DeviceKey, Vec<u8>),
}

impl Edit {
    /// The call, and the name that it is about.
    pub fn name(&self) -> String {
        match self {
            Edit::AddDevice(key, _) => format!("add_device of {key:?}"),
            Edit::AddDisk(id, _, _) => format!("add_disk of {id}"),
            Edit::RemoveDevice(key) => format!("remove_device of {key:?}"),
            Edit::RemoveDisk(id) => format!("remove_disk of {id}"),
            Edit::ReplaceDevice(key, _) => format!("replace_device of {key:?}"),
        }
    }
}

/// The four numbers of a canonical file.
#[derive(Clone, Copy, Debug, PartialEq, Eq)]
pub struct Numbers {
    pub length: usize,
    pub sections: usize,
    pub devices: usize,
    pub payloads: usize,
}

/// A map from names to what they hold, beside what follows the two lists and the other sections.
#[derive(Clone, Default)]
pub struct Model {
    devices: BTreeMap<DeviceKey, Vec<u8>>,
    disks: BTreeMap<u32, (Vec<u8>, Vec<u8>)>,
    device_tail: Vec<u8>,
    disk_tail: Vec<u8>,
    /// Other sections, whole, in their order.
    others: Vec<Vec<u8>>,
}

/// A list with neither entries nor a tail has no section.
fn listed(entries: usize, tail: &[u8]) -> usize {
    usize::from(entries > 0 || !tail.is_empty())
}

fn number(bytes: &[u8], at: usize, width: usize) -> usize {
    let mut number = [0; 8];
    number[..width].copy_from_slice(&bytes[at..at + width]);
    u64::from_le_bytes(number) as usize
}

/// The bytes behind a length of `width` bytes at `at`, and where they end.
fn sized(bytes: &[u8], at: usize, width: usize) -> (Vec<u8>, usize) {
    let end = at + width + number(bytes, at, width);
    (bytes[at + width..end].to_vec(), end)
}

impl Model {
    /// The map of a canonical file.
    pub fn of(file: &[u8]) -> Self {
        let mut model = Model::default();
        let mut at = 16;
        while at < file.len() {
            let end = at + 16 + number(file, at + 8, 8);
            model.section(&file[at..end]);
            at = end;
        }
        model
    }

    fn section(&mut self, section: &[u8]) {
        let (id, payload) = (number(section, 0, 4) as u32, &section[16..]);
        match id {
            DEVICES => self.read_devices(payload),
            DISKS => self.read_disks(payload),
            _ => self.others.push(section.to_vec()),
        }
    }

    fn read_devices(&mut self, payload: &[u8]) {
        let mut at = 4;
        for _ in 0..number(payload, 0, 4) {
            let [version, flags] = [4, 6].map(|field| number(payload, at + field, 2) as u16);
            let key = (number(payload, at, 4) as u32, version, flags);
            let (bytes, end) = sized(payload, at + 8, 8);
            self.devices.insert(key, bytes);
            at = end;
        }
        self.device_tail = payload[at..].to_vec();
    }

    fn read_disks(&mut self, payload: &[u8]) {
        let mut at = 4;
        for _ in 0..number(payload, 0, 4) {
            let id = number(payload, at, 4) as u32;
            let (base, end) = sized(payload, at + 4, 4);
            let (overlay, end) = sized(payload, end, 4);
            self.disks.insert(id, (base, overlay));
            at = end;
        }
        self.disk_tail = payload[at..].to_vec();
    }

    /// What it answers to an edit; taken, the edit is made.
    pub fn edit(&mut self, edit: &Edit) -> Answer {
        let before = self.clone();
        match self.made(edit) {
            Ok(()) => Answer { number: 0, place: self.numbers().length as u64 },
            Err(number) => {
                *self = before;
                Answer { number, place: 0 }
            }
        }
    }

    /// The edit made, or the number of the first check that fails.
    fn made(&mut self, edit: &Edit) -> Result<(), u32> {
        match edit {
            Edit::AddDevice(key, payload) => {
                within(payload.len(), 64 * MIB, LIMIT)?;
                put(self.devices.entry(*key), payload.clone())?;
                within(self.devices.len(), 4096, LIMIT)?;
                self.bounds()
            }
            Edit::AddDisk(id, base, overlay) => {
                within(base.len().max(overlay.len()), 65_536, LIMIT)?;
                for path in [base, overlay] {
                    std::str::from_utf8(path).map_err(|_| TEXT)?;
                }
                put(self.disks.entry(*id), (base.clone(), overlay.clone()))?;
                within(self.disks.len(), 256, LIMIT)?;
                self.bounds()
            }
            Edit::RemoveDevice(key) => self.devices.remove(key).map(|_| ()).ok_or(ABSENT),
            Edit::RemoveDisk(id) => self.disks.remove(id).map(|_| ()).ok_or(ABSENT),
            Edit::ReplaceDevice(key, payload) => {
                within(payload.len(), 64 * MIB, LIMIT)?;
                *self.devices.get_mut(key).ok_or(ABSENT)? = payload.clone();
                self.bounds()
            }
        }
    }

    /// The bounds of a file: its devices' payload, its sections, its length.
    fn bounds(&self) -> Result<(), u32> {
        let numbers = self.numbers();
        within(4 + self.device_bytes(), 256 * MIB, LIMIT)?;
        within(numbers.sections, 64, MANY)?;
        within(numbers.length, 1024 * MIB, SIZE)
    }

    /// The bytes of the devices and what follows them.
    fn device_bytes(&self) -> usize {
        self.devices.values().map(|payload| 16 + payload.len()).sum::<usize>()
            + self.device_tail.len()
    }

    fn disk_bytes(&self) -> usize {
        self.disks.values().map(|(base, overlay)| 12 + base.len() + overlay.len()).sum::<usize>()
            + self.disk_tail.len()
    }

    /// Its numbers, by counting.
    pub fn numbers(&self) -> Numbers {
        let [devices, disks] = [
            listed(self.devices.len(), &self.device_tail),
            listed(self.disks.len(), &self.disk_tail),
        ];
        let others: usize = self.others.iter().map(Vec::len).sum();
        Numbers {
            length: 16 + 20 * (devices + disks) + self.device_bytes() + self.disk_bytes() + others,
            sections: devices + disks + self.others.len(),
            devices: self.devices.len(),
            payloads: self.devices.values().map(Vec::len).sum(),
        }
    }

    /// The file that shows it: known sections by their ids, then the others.
    pub fn file(&self) -> Vec<u8> {
        let mut made = Made::file();
        let mut others = self.others.iter().peekable();
        for id in 1..=LAST_KNOWN {
            match id {
                DEVICES => self.write_devices(&mut made),
                DISKS => self.write_disks(&mut made),
                _ => {}
            }
            while let Some(section) = others.next_if(|other| number(other, 0, 4) as u32 == id) {
                made.raw(section);
            }
        }
        for section in others {
            made.raw(section);
        }
        made.bytes
    }

    fn write_devices(&self, made: &mut Made) {
        if listed(self.devices.len(), &self.device_tail) == 1 {
            made.section(DEVICES, 1, 0, |made| {
                made.number(4, self.devices.len() as u64);
                for (key, payload) in &self.devices {
                    made.device(*key, payload);
                }
                made.raw(&self.device_tail);
            });
        }
    }

    fn write_disks(&self, made: &mut Made) {
        if listed(self.disks.len(), &self.disk_tail) == 1 {
            made.section(DISKS, 1, 0, |made| {
                made.number(4, self.disks.len() as u64);
                for (id, (base, overlay)) in &self.disks {
                    made.disk(*id, base, overlay);
                }
                made.raw(&self.disk_tail);
            });
        }
    }

    /// The keys of its devices and the ids of its disks.
    pub fn names(&self) -> (Vec<DeviceKey>, Vec<u32>) {
        (self.devices.keys().copied().collect(), self.disks.keys().copied().collect())
    }
}

fn within(number: usize, most: usize, refusal: u32) -> Result<(), u32> {
    if number <= most {
        Ok(())
    } else {
        Err(refusal)
    }
}

/// A new name holds it then.
fn put<K: Ord, V>(entry: Entry<'_, K, V>, value: V) -> Result<(), u32> {
    match entry {
        Entry::Occupied(_) => Err(HAVE),
        Entry::Vacant(place) => {
            place.insert(value);
            Ok(())
        }
    }
}

#[cfg(test)]
mod tests {
    use super::*;

    fn two() -> Model {
        let mut model = Model::default();
        assert_eq!(model.edit(&Edit::AddDevice((14, 1, 0), vec![0x11])).place, 53);
        assert_eq!(model.edit(&Edit::AddDevice((3, 1, 0), vec![0xAB, 0xCD])).place, 71);
        model
    }

    #[test]
    fn a_file_is_read_back_as_its_map() {
        let model = two();
        let file = model.file();
        assert_eq!(Model::of(&file).file(), file);
        assert_eq!(model.numbers(), Numbers { length: 71, sections: 1, devices: 2, payloads: 3 });
    }

    #[test]
    fn a_refused_edit_changes_nothing() {
        let mut model = two();
        let file = model.file();
        for (edit, number) in [
            (Edit::AddDevice((3, 1, 0), vec![]), HAVE),
            (Edit::RemoveDevice((3, 1, 1)), ABSENT),
            (Edit::RemoveDisk(0), ABSENT),
            (Edit::AddDisk(0, vec![0xFF], vec![]), TEXT),
        ] {
            assert_eq!(model.edit(&edit), Answer { number, place: 0 });
            assert!(model.file() == file);
        }
    }
}
