//! Snapshot files: checking, tables, the canonical form, cards and edits.
//!
//! An edit takes the card of its file and gives the card of its result; [`Snapshot`](crate::Snapshot) keeps the two together.

pub use crate::raw::NewDevice;
use crate::raw::{self, Card};
use crate::records::{self, position, table_most, u16_at, u32_at, u64_at, RECORD};
use crate::refusal::{edited, filled, outcome, RefusedEntry, Result};
pub use crate::salvage::{salvage, Loss, Rescued};

/// The shortest snapshot: the header, and no section.
///
/// ```
/// use cimbrolau::snapshot;
/// snapshot::check(&snapshot::EMPTY)?;
/// # Ok::<(), cimbrolau::Refusal>(())
/// ```
pub const EMPTY: [u8; 16] = *b"AEROSNAP\x01\x00\x01\x00\x00\x00\x00\x00";

/// The most bytes a snapshot has, 1024 MiB; a longer file is SIZE.
pub const MOST_BYTES: u64 = 1024 << 20;

/// The most bytes a device's payload has, 64 MiB; a longer one is LIMIT.
pub const MOST_PAYLOAD_BYTES: u64 = 64 << 20;

/// The most bytes a section of devices has, 256 MiB; with more of them it is LIMIT.
pub const MOST_DEVICES_BYTES: u64 = 256 << 20;

/// A section of a snapshot.
#[derive(Clone, Copy, Debug, PartialEq, Eq, Hash)]
pub struct Section {
    /// What it holds: META 1, CPU 2, MMU 3, DEVICES 4, DISKS 5, RAM 6, CPUS 7, MMUS 8; others are carried.
    pub id: u32,
    /// The section's version.
    pub version: u16,
    /// The section's flags, 0 in the known ones.
    pub flags: u16,
    /// Where its payload starts in the file.
    pub offset: u64,
    /// How many bytes its payload has.
    pub length: u64,
    /// Its number in the file, from 0.
    pub position: u32,
}

impl Section {
    /// The section's payload in the file that it came from; none in a file too short to be that.
    ///
    /// ```
    /// use cimbrolau::{snapshot, Card};
    /// let (file, _) = snapshot::add_disk(&snapshot::EMPTY, Card::EMPTY, 1, b"", b"")?;
    /// let section = snapshot::sections(&file)?[0];
    /// assert_eq!(section.payload(&file).map(<[u8]>::len), Some(16));
    /// assert_eq!(section.payload(b"another file"), None);
    /// # Ok::<(), cimbrolau::Refusal>(())
    /// ```
    pub fn payload<'a>(&self, file: &'a [u8]) -> Option<&'a [u8]> {
        records::part(file, self.offset, self.length)
    }

    fn of(record: &[u8]) -> Section {
        Section {
            id: u32_at(record, 0),
            version: u16_at(record, 4),
            flags: u16_at(record, 6),
            offset: u64_at(record, 8),
            length: u64_at(record, 16),
            position: position(record),
        }
    }
}

/// What tells a device from another: its id, version and flags, compared as numbers in this order.
///
/// ```
/// use cimbrolau::snapshot::DeviceKey;
/// let key = DeviceKey { id: 3, version: 1, flags: 0 };
/// assert_eq!(DeviceKey::from((3, 1, 0)), key);
/// assert!(key < (256, 0, 0).into());
/// ```
#[derive(Clone, Copy, Debug, PartialEq, Eq, Hash, PartialOrd, Ord)]
pub struct DeviceKey {
    /// The device's id.
    pub id: u32,
    /// The version of its payload.
    pub version: u16,
    /// The device's flags.
    pub flags: u16,
}

impl From<(u32, u16, u16)> for DeviceKey {
    fn from((id, version, flags): (u32, u16, u16)) -> DeviceKey {
        DeviceKey { id, version, flags }
    }
}

/// A device of a snapshot. Its key is its id, version and flags, compared in this order.
#[derive(Clone, Copy, Debug, PartialEq, Eq, Hash)]
pub struct Device {
    /// The device's id.
    pub id: u32,
    /// The version of its payload.
    pub version: u16,
    /// The device's flags.
    pub flags: u16,
    /// Where its payload starts in the file.
    pub offset: u64,
    /// How many bytes its payload has.
    pub length: u64,
    /// Its number in the file's own list of devices, from 0: who came first.
    pub position: u32,
}

impl Device {
    /// The device's key.
    ///
    /// ```
    /// use cimbrolau::{snapshot, Card};
    /// let (file, _) = snapshot::add_device(&snapshot::EMPTY, Card::EMPTY, (3, 1, 0), &[])?;
    /// assert_eq!(snapshot::devices(&file)?[0].key(), (3, 1, 0).into());
    /// # Ok::<(), cimbrolau::Refusal>(())
    /// ```
    pub fn key(&self) -> DeviceKey {
        DeviceKey { id: self.id, version: self.version, flags: self.flags }
    }

    /// The device's payload in the file that it came from; none in a file too short to be that.
    ///
    /// ```
    /// use cimbrolau::{snapshot, Card};
    /// let (file, _) = snapshot::add_device(&snapshot::EMPTY, Card::EMPTY, (3, 1, 0), &[0xAB, 0xCD])?;
    /// assert_eq!(snapshot::devices(&file)?[0].payload(&file), Some(&[0xAB, 0xCD][..]));
    /// # Ok::<(), cimbrolau::Refusal>(())
    /// ```
    pub fn payload<'a>(&self, file: &'a [u8]) -> Option<&'a [u8]> {
        records::part(file, self.offset, self.length)
    }

    fn of(record: &[u8]) -> Device {
        Device {
            id: u32_at(record, 0),
            version: u16_at(record, 4),
            flags: u16_at(record, 6),
            offset: u64_at(record, 8),
            length: u64_at(record, 16),
            position: position(record),
        }
    }
}

/// A disk of a snapshot: its two images by name. Its key is its id.
#[derive(Clone, Copy, Debug, PartialEq, Eq, Hash)]
pub struct Disk {
    /// The disk's id.
    pub id: u32,
    /// Where the base image's name starts in the file.
    pub base_offset: u64,
    /// How many bytes the base image's name has.
    pub base_length: u32,
    /// How many bytes the overlay image's name has.
    pub overlay_length: u32,
    /// Its number in the file's own list of disks, from 0: who came first.
    pub position: u32,
}

impl Disk {
    /// The base image's name in the file that the disk came from; none in a file that cannot be that.
    ///
    /// ```
    /// use cimbrolau::{snapshot, Card};
    /// let (file, _) = snapshot::add_disk(&snapshot::EMPTY, Card::EMPTY, 1, b"base.img", b"day.img")?;
    /// let disk = snapshot::disks(&file)?[0];
    /// assert_eq!(disk.base(&file), Some("base.img"));
    /// assert_eq!(disk.overlay(&file), Some("day.img"));
    /// # Ok::<(), cimbrolau::Refusal>(())
    /// ```
    pub fn base<'a>(&self, file: &'a [u8]) -> Option<&'a str> {
        let name = records::part(file, self.base_offset, u64::from(self.base_length))?;
        std::str::from_utf8(name).ok()
    }

    /// Where the overlay image's name starts in the file: behind the base image's name and a length of four bytes.
    ///
    /// ```
    /// use cimbrolau::{snapshot, Card};
    /// let (file, _) = snapshot::add_disk(&snapshot::EMPTY, Card::EMPTY, 1, b"base.img", b"")?;
    /// assert_eq!(snapshot::disks(&file)?[0].overlay_offset(), 56);
    /// # Ok::<(), cimbrolau::Refusal>(())
    /// ```
    pub fn overlay_offset(&self) -> u64 {
        self.base_offset.saturating_add(u64::from(self.base_length) + 4)
    }

    /// The overlay image's name in the file that the disk came from; none in a file that cannot be that.
    /// (See [`Disk::base`] for an example.)
    pub fn overlay<'a>(&self, file: &'a [u8]) -> Option<&'a str> {
        let name = records::part(file, self.overlay_offset(), u64::from(self.overlay_length))?;
        std::str::from_utf8(name).ok()
    }

    fn of(record: &[u8]) -> Disk {
        Disk {
            id: u32_at(record, 0),
            base_length: u32_at(record, 4),
            base_offset: u64_at(record, 8),
            overlay_length: u32_at(record, 16),
            position: position(record),
        }
    }
}

/// A CPU of a snapshot that has several. Its key is its APIC id.
#[derive(Clone, Copy, Debug, PartialEq, Eq, Hash)]
pub struct Cpu {
    /// The CPU's APIC id.
    pub apic: u32,
    /// How many bytes its state has.
    pub state_length: u32,
    /// Where its state starts in the file.
    pub state_offset: u64,
    /// How many bytes its internal blob has.
    pub blob_length: u64,
    /// Its number in the file's own list of CPUs, from 0: who came first.
    pub position: u32,
}

impl Cpu {
    /// The CPU's state in the file that it came from; none in a file too short to be that.
    /// (See [`cpus`] for an example.)
    pub fn state<'a>(&self, file: &'a [u8]) -> Option<&'a [u8]> {
        records::part(file, self.state_offset, u64::from(self.state_length))
    }

    /// The internal blob, which starts behind the state and a length of eight bytes.
    pub fn blob<'a>(&self, file: &'a [u8]) -> Option<&'a [u8]> {
        let start = self.state_offset.checked_add(u64::from(self.state_length) + 8)?;
        records::part(file, start, self.blob_length)
    }

    fn of(record: &[u8]) -> Cpu {
        Cpu {
            apic: u32_at(record, 0),
            state_length: u32_at(record, 4),
            state_offset: u64_at(record, 8),
            blob_length: u64_at(record, 16),
            position: position(record),
        }
    }
}

/// An MMU of a snapshot that has several. Its key is its APIC id.
#[derive(Clone, Copy, Debug, PartialEq, Eq, Hash)]
pub struct Mmu {
    /// The APIC id of its CPU.
    pub apic: u32,
    /// How many bytes its state has.
    pub state_length: u32,
    /// Where its state starts in the file.
    pub state_offset: u64,
    /// Its number in the file's own list of MMUs, from 0: who came first.
    pub position: u32,
}

impl Mmu {
    /// The MMU's state in the file that it came from; none in a file too short to be that.
    /// (See [`mmus`] for an example.)
    pub fn state<'a>(&self, file: &'a [u8]) -> Option<&'a [u8]> {
        records::part(file, self.state_offset, u64::from(self.state_length))
    }

    fn of(record: &[u8]) -> Mmu {
        Mmu {
            apic: u32_at(record, 0),
            state_length: u32_at(record, 4),
            state_offset: u64_at(record, 8),
            position: position(record),
        }
    }
}

/// What META says of a snapshot.
#[derive(Clone, Copy, Debug, PartialEq, Eq, Hash)]
pub struct Meta {
    /// The snapshot's id.
    pub id: u64,
    /// The id of its parent, if it has one.
    pub parent: Option<u64>,
    /// The time in milliseconds.
    pub time: u64,
    /// Where its label starts in the file and how many bytes it has, if it has one.
    pub label: Option<(u64, u64)>,
}

impl Meta {
    /// The label in the file that it came from; none where there is none, or in a file that cannot be that.
    /// (See [`meta`] for an example.)
    pub fn label<'a>(&self, file: &'a [u8]) -> Option<&'a str> {
        let (place, length) = self.label?;
        std::str::from_utf8(records::part(file, place, length)?).ok()
    }
}

// How many sections, devices and disks a file has at most, and how many CPUs and MMUs.
const SECTIONS: usize = 64;
const DEVICES: usize = 4096;
const DISKS: usize = 256;
const CPUS: usize = 256;
const MMUS: usize = 256;

/// So many bytes, or as many as a file may have.
pub(crate) fn file_most(bytes: usize) -> usize {
    bytes.min(MOST_BYTES as usize)
}

/// Whether the file follows the rules; else its first fault.
///
/// ```
/// use cimbrolau::{snapshot, Kind};
/// assert!(snapshot::check(&snapshot::EMPTY).is_ok());
///
/// let mut file = snapshot::EMPTY;
/// file[10] = 2;
/// let refusal = snapshot::check(&file).unwrap_err();
/// assert_eq!((refusal.kind, refusal.place), (Kind::Endian, 10));
/// ```
pub fn check(file: &[u8]) -> Result<()> {
    let answer = raw::check(file);
    outcome(answer.number, answer.place)?;
    Ok(())
}

/// Every section of the file, in file order.
///
/// ```
/// use cimbrolau::{snapshot, Card};
/// let (file, _) = snapshot::add_device(&snapshot::EMPTY, Card::EMPTY, (3, 1, 0), &[0xAB, 0xCD])?;
/// let sections = snapshot::sections(&file)?;
/// assert_eq!(sections.len(), 1);
/// assert_eq!((sections[0].id, sections[0].offset, sections[0].length), (4, 32, 22));
/// # Ok::<(), cimbrolau::Refusal>(())
/// ```
pub fn sections(file: &[u8]) -> Result<Vec<Section>> {
    let table = filled(RECORD * SECTIONS, |table| raw::sections(file, table))?;
    records::all(&table, Section::of)
}

/// Every device of the file, in the order of their keys.
///
/// ```
/// use cimbrolau::{snapshot, Card};
/// let (file, card) = snapshot::add_device(&snapshot::EMPTY, Card::EMPTY, (256, 1, 0), &[0x11])?;
/// let (file, _) = snapshot::add_device(&file, card, (1, 1, 0), &[])?;
/// let ids: Vec<u32> = snapshot::devices(&file)?.iter().map(|device| device.id).collect();
/// assert_eq!(ids, [1, 256]);
/// # Ok::<(), cimbrolau::Refusal>(())
/// ```
pub fn devices(file: &[u8]) -> Result<Vec<Device>> {
    let table = filled(table_most(file, 16, DEVICES), |table| raw::devices(file, table))?;
    records::all(&table, Device::of)
}

/// Every disk of the file, in the order of their ids.
///
/// ```
/// use cimbrolau::{snapshot, Card};
/// let (file, _) = snapshot::add_disk(&snapshot::EMPTY, Card::EMPTY, 2, b"base.img", b"")?;
/// let disks = snapshot::disks(&file)?;
/// assert_eq!(disks.len(), 1);
/// assert_eq!((disks[0].id, disks[0].base_offset, disks[0].base_length), (2, 44, 8));
/// # Ok::<(), cimbrolau::Refusal>(())
/// ```
pub fn disks(file: &[u8]) -> Result<Vec<Disk>> {
    let table = filled(table_most(file, 12, DISKS), |table| raw::disks(file, table))?;
    records::all(&table, Disk::of)
}

/// Every CPU of the file's CPUS section, in the order of their APIC ids. None of a file that has one CPU in a section CPU:
/// that section's payload is its state.
///
/// ```
/// use cimbrolau::snapshot;
/// let mut file = snapshot::EMPTY.to_vec();
/// file.extend([7, 0, 0, 0, 1, 0, 0, 0, 180, 1, 0, 0, 0, 0, 0, 0]); // a CPUS section of version 1
/// file.extend([1, 0, 0, 0, 5, 0, 0, 0, 156, 1, 0, 0]); // one CPU, its APIC id and the length of its state
/// file.extend([0x11; 412]);
/// file.extend([4, 0, 0, 0, 0, 0, 0, 0, 1, 2, 3, 4]); // the internal blob
/// let cpu = snapshot::cpus(&file)?[0];
/// assert_eq!((cpu.apic, cpu.state_offset, cpu.state_length), (5, 44, 412));
/// assert_eq!(cpu.state(&file), Some(&[0x11; 412][..]));
/// assert_eq!(cpu.blob(&file), Some(&[1, 2, 3, 4][..]));
/// # Ok::<(), cimbrolau::Refusal>(())
/// ```
pub fn cpus(file: &[u8]) -> Result<Vec<Cpu>> {
    let table = filled(table_most(file, 428, CPUS), |table| raw::cpus(file, table))?;
    records::all(&table, Cpu::of)
}

/// Every MMU of the file's MMUS section, in the order of their APIC ids. None of a file that has one MMU in a section MMU.
///
/// ```
/// use cimbrolau::snapshot;
/// let mut file = snapshot::EMPTY.to_vec();
/// file.extend([8, 0, 0, 0, 1, 0, 0, 0, 76, 0, 0, 0, 0, 0, 0, 0]); // an MMUS section of version 1
/// file.extend([1, 0, 0, 0, 5, 0, 0, 0]); // one MMU, and its APIC id
/// file.extend([0x22; 68]);
/// let mmu = snapshot::mmus(&file)?[0];
/// assert_eq!((mmu.apic, mmu.state_offset), (5, 40));
/// assert_eq!(mmu.state(&file), Some(&[0x22; 68][..]));
/// # Ok::<(), cimbrolau::Refusal>(())
/// ```
pub fn mmus(file: &[u8]) -> Result<Vec<Mmu>> {
    let table = filled(table_most(file, 72, MMUS), |table| raw::mmus(file, table))?;
    records::all(&table, Mmu::of)
}

/// What the file's META section says; none of a file that has none.
///
/// ```
/// use cimbrolau::snapshot;
/// assert_eq!(snapshot::meta(&snapshot::EMPTY)?, None);
///
/// let mut file = snapshot::EMPTY.to_vec();
/// file.extend([1, 0, 0, 0, 1, 0, 0, 0, 27, 0, 0, 0, 0, 0, 0, 0]); // a META section
/// file.extend([7, 0, 0, 0, 0, 0, 0, 0, 0]); // snapshot 7, which has no parent
/// file.extend([232, 3, 0, 0, 0, 0, 0, 0]); // a second after midnight of 1 January 1970
/// file.extend(b"\x01\x05\x00\x00\x00night"); // a label of five bytes
/// let meta = snapshot::meta(&file)?.expect("META");
/// assert_eq!((meta.id, meta.parent, meta.time), (7, None, 1000));
/// assert_eq!(meta.label(&file), Some("night"));
/// # Ok::<(), cimbrolau::Refusal>(())
/// ```
pub fn meta(file: &[u8]) -> Result<Option<Meta>> {
    let said = raw::meta(file);
    outcome(said.number, said.place)?;
    Ok((said.present == 1).then_some(Meta {
        id: said.id,
        parent: (said.has_parent == 1).then_some(said.parent),
        time: said.time,
        label: (said.has_label == 1).then_some((said.label_place, said.label_length)),
    }))
}

/// The file's canonical form: the known sections in ascending id, then the others as found; lists in the order of their
/// keys; lists with no entry left out.
///
/// ```
/// use cimbrolau::snapshot;
/// let mut file = snapshot::EMPTY.to_vec();
/// file.extend([4, 0, 0, 0, 1, 0, 0, 0, 4, 0, 0, 0, 0, 0, 0, 0]); // a DEVICES section
/// file.extend([0, 0, 0, 0]); // with a count of 0
/// assert_eq!(snapshot::canonical(&file)?, snapshot::EMPTY);
/// # Ok::<(), cimbrolau::Refusal>(())
/// ```
pub fn canonical(file: &[u8]) -> Result<Vec<u8>> {
    // It is never longer than the file.
    filled(file_most(file.len()), |out| raw::canonical(file, out))
}

/// The card of the file's canonical form.
///
/// ```
/// use cimbrolau::{snapshot, Card};
/// let (file, card) = snapshot::add_device(&snapshot::EMPTY, Card::EMPTY, (3, 1, 0), &[0xAB, 0xCD])?;
/// assert_eq!(snapshot::open(&file)?, card);
/// assert_eq!(card, Card { length: 54, sections: 1, devices: 1, payloads: 2 });
/// # Ok::<(), cimbrolau::Refusal>(())
/// ```
pub fn open(file: &[u8]) -> Result<Card> {
    let answer = raw::open(file);
    outcome(answer.number, answer.place)?;
    Ok(answer.card)
}

/// The canonical form of the file with one device more, and its card. A key that is there already is HAVE.
///
/// `card` is that of the file, which [`open`] and every edit give: each of its numbers is moved by what is added. The bytes do
/// not depend on it. Beside a card that is not the file's an edit is CARD where a number would leave its bounds.
///
/// ```
/// use cimbrolau::{snapshot, Card, Kind};
/// let (file, card) = snapshot::add_device(&snapshot::EMPTY, Card::EMPTY, (3, 1, 0), &[0xAB, 0xCD])?;
/// assert_eq!(file.len(), 54);
/// assert_eq!(card, Card { length: 54, sections: 1, devices: 1, payloads: 2 });
///
/// let refusal = snapshot::add_device(&file, card, (3, 1, 0), &[]).unwrap_err();
/// assert_eq!(refusal.kind, Kind::Have);
/// # Ok::<(), cimbrolau::Refusal>(())
/// ```
pub fn add_device(
    file: &[u8],
    card: Card,
    key: impl Into<DeviceKey>,
    payload: &[u8],
) -> Result<(Vec<u8>, Card)> {
    let DeviceKey { id, version, flags } = key.into();
    // At most a section's header and count, and the entry, are added.
    let most = file_most(file.len() + 20 + 16 + payload.len());
    edited(most, |out| raw::add_device(file, card, id, version, flags, payload, out))
}

/// The canonical form of the file with one disk more: its id and the names of its base and overlay images, in UTF-8.
/// A disk that is there already is HAVE.
///
/// ```
/// use cimbrolau::{snapshot, Card, Kind};
/// let (file, card) = snapshot::add_disk(&snapshot::EMPTY, Card::EMPTY, 1, "système.img".as_bytes(), b"")?;
/// assert_eq!(snapshot::disks(&file)?[0].base(&file), Some("système.img"));
///
/// let refusal = snapshot::add_disk(&file, card, 2, b"syst\xE8me.img", b"").unwrap_err();
/// assert_eq!(refusal.kind, Kind::Text);
/// # Ok::<(), cimbrolau::Refusal>(())
/// ```
pub fn add_disk(
    file: &[u8],
    card: Card,
    id: u32,
    base: &[u8],
    overlay: &[u8],
) -> Result<(Vec<u8>, Card)> {
    let most = file_most(file.len() + 20 + 12 + base.len() + overlay.len());
    edited(most, |out| raw::add_disk(file, card, id, base, overlay, out))
}

/// The canonical form of the file with many devices more, and its card: what [`add_device`] gives for one after the other, with
/// one copy of the file. The payload of each is a part of `store`; one that lies outside of it is PAYLOAD, and a key that comes
/// again among them is HAVE. The first that is refused is named by its index, and none of them is added then.
///
/// ```
/// use cimbrolau::snapshot::{self, NewDevice};
/// use cimbrolau::{Card, Kind};
/// let new = |id, place, length| NewDevice { id, version: 1, flags: 0, place, length };
/// let store = [0xAB, 0xCD, 0x11];
/// let (file, card) =
///     snapshot::add_devices(&snapshot::EMPTY, Card::EMPTY, &[new(14, 2, 1), new(3, 0, 2)], &store)?;
/// assert_eq!(card, Card { length: 71, sections: 1, devices: 2, payloads: 3 });
/// assert_eq!(snapshot::devices(&file)?[0].payload(&file), Some(&[0xAB, 0xCD][..]));
///
/// let refused = snapshot::add_devices(&file, card, &[new(5, 3, 0), new(6, 3, 1)], &store).unwrap_err();
/// assert_eq!((refused.index, refused.refusal.kind), (1, Kind::Payload));
/// # Ok::<(), cimbrolau::Refusal>(())
/// ```
pub fn add_devices(
    file: &[u8],
    card: Card,
    devices: &[NewDevice],
    store: &[u8],
) -> std::result::Result<(Vec<u8>, Card), RefusedEntry> {
    // At most a section's header and count, and a section's worth of entries, are added: more is LIMIT before it is ROOM.
    let entries = devices.iter().map(|device| device.length.saturating_add(16));
    let bytes = entries.fold(0, u64::saturating_add).min(MOST_DEVICES_BYTES);
    let most = file_most(file.len() + 20 + bytes as usize);
    let mut index = 0;
    let made = edited(most, |out| {
        let given = raw::add_devices(file, card, &raw::table_of(devices), store, out);
        index = given.index;
        given
    });
    made.map_err(|refusal| RefusedEntry { index, refusal })
}

/// The canonical form of the file without one of its devices. A key that is not there is ABSENT; with its last device a
/// file loses its section of devices.
///
/// ```
/// use cimbrolau::{snapshot, Card, Kind};
/// let (file, card) = snapshot::add_device(&snapshot::EMPTY, Card::EMPTY, (18, 1, 0), &[0x11])?;
/// assert_eq!(snapshot::remove_device(&file, card, (18, 1, 0))?, (snapshot::EMPTY.to_vec(), Card::EMPTY));
///
/// let refusal = snapshot::remove_device(&file, card, (18, 2, 0)).unwrap_err();
/// assert_eq!(refusal.kind, Kind::Absent);
/// # Ok::<(), cimbrolau::Refusal>(())
/// ```
pub fn remove_device(
    file: &[u8],
    card: Card,
    key: impl Into<DeviceKey>,
) -> Result<(Vec<u8>, Card)> {
    let DeviceKey { id, version, flags } = key.into();
    // It is never longer than the file.
    edited(file_most(file.len()), |out| raw::remove_device(file, card, id, version, flags, out))
}

/// The canonical form of the file without one of its disks. A disk that is not there is ABSENT.
///
/// ```
/// use cimbrolau::{snapshot, Card};
/// let (file, card) = snapshot::add_disk(&snapshot::EMPTY, Card::EMPTY, 1, b"base.img", b"")?;
/// assert_eq!(snapshot::remove_disk(&file, card, 1)?, (snapshot::EMPTY.to_vec(), Card::EMPTY));
/// # Ok::<(), cimbrolau::Refusal>(())
/// ```
pub fn remove_disk(file: &[u8], card: Card, id: u32) -> Result<(Vec<u8>, Card)> {
    edited(file_most(file.len()), |out| raw::remove_disk(file, card, id, out))
}

/// The canonical form of the file with another payload in one of its devices. A key that is not there is ABSENT.
///
/// ```
/// use cimbrolau::{snapshot, Card};
/// let (file, card) = snapshot::add_device(&snapshot::EMPTY, Card::EMPTY, (3, 1, 0), &[15, 0])?;
/// let (file, _) = snapshot::replace_device(&file, card, (3, 1, 0), &[16, 0])?;
/// assert_eq!(snapshot::devices(&file)?[0].payload(&file), Some(&[16, 0][..]));
/// # Ok::<(), cimbrolau::Refusal>(())
/// ```
pub fn replace_device(
    file: &[u8],
    card: Card,
    key: impl Into<DeviceKey>,
    payload: &[u8],
) -> Result<(Vec<u8>, Card)> {
    let DeviceKey { id, version, flags } = key.into();
    // It grows by no more than the new payload.
    let most = file_most(file.len() + payload.len());
    edited(most, |out| raw::replace_device(file, card, id, version, flags, payload, out))
}
