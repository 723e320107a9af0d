//! AEROSNAP files: checked, listed, written in canonical form, and edited beside a card.

use crate::answer::{
    answered, ask, Answer, Taken, ABSENT, CUT, ENDIAN, HAVE, LIMIT, MAGIC, MANY, RESERVED, SECVER,
    SHAPE, SHORT, SIZE, TEXT, TWICE, VERSION,
};
use crate::card::{edited, opened, Card, Edited};
use crate::cursor::{is_text, u16_at, u32_at, u64_at, Cursor, Output};
use crate::list::{
    device_key, is_cpu_length, mmu_length, read_cpu_state, read_list, record, write_table, Entry,
    Kind, List, MOST_IMAGE, MOST_PAYLOAD, RECORD,
};

pub(crate) const MOST_FILE: usize = 1024 << 20;
pub(crate) const MOST_SECTIONS: usize = 64;
pub(crate) const MOST_DEVICES_PAYLOAD: u64 = 256 << 20;
const MOST_LABEL: u32 = 4096;

/// The file's header, and the length of a section's header.
pub(crate) const HEADER: &[u8; 16] = b"AEROSNAP\x01\x00\x01\x00\x00\x00\x00\x00";
pub(crate) const SECTION_HEADER: usize = 16;

const META: u32 = 1;
const CPU: u32 = 2;
const MMU: u32 = 3;
pub(crate) const DEVICES: u32 = 4;
const DISKS: u32 = 5;
const RAM: u32 = 6;
const CPUS: u32 = 7;
const MMUS: u32 = 8;

/// A section of a file that is taken.
pub(crate) struct Section<'a> {
    pub(crate) id: u32,
    /// Where its header starts in the file.
    start: usize,
    /// Its header and its payload.
    pub(crate) bytes: &'a [u8],
    /// The entries of DEVICES, DISKS, CPUS and MMUS.
    pub(crate) list: Option<List<'a>>,
}

/// Checks a file.
pub fn check(file: &[u8]) -> Answer {
    answered(read_file(file).map(|_| 0))
}

/// Writes a record for each section, in file order.
pub fn sections(file: &[u8], table: &mut [u8]) -> Answer {
    answered(read_file(file).and_then(|sections| write_sections(&sections, table)))
}

/// Writes a record for each device, in key order.
pub fn devices(file: &[u8], table: &mut [u8]) -> Answer {
    answered(list_table(file, DEVICES, device_record, table))
}

/// Writes a record for each disk, in key order.
pub fn disks(file: &[u8], table: &mut [u8]) -> Answer {
    answered(list_table(file, DISKS, disk_record, table))
}

/// Writes a record for each CPU of CPUS, in key order.
pub fn cpus(file: &[u8], table: &mut [u8]) -> Answer {
    answered(list_table(file, CPUS, cpu_record, table))
}

/// Writes a record for each MMU of MMUS, in key order.
pub fn mmus(file: &[u8], table: &mut [u8]) -> Answer {
    answered(list_table(file, MMUS, mmu_record, table))
}

/// What META says: the snapshot's id, its parent's, the time, and where the label stands with its length.
#[derive(Clone, Copy, Debug, Default, PartialEq, Eq)]
pub struct Meta {
    pub id: u64,
    pub parent: Option<u64>,
    pub time: u64,
    pub label: Option<(u64, u64)>,
}

/// Checks a file, and reads its META section if it has one.
pub fn meta(file: &[u8]) -> (Answer, Option<Meta>) {
    let read = read_file(file).map(|sections| {
        let meta = sections.iter().find(|section| section.id == META)?;
        let start = meta.start + SECTION_HEADER;
        read_meta(&mut Cursor::new(file, start, meta.start + meta.bytes.len())).ok()
    });
    (answered(read.map(|_| 0)), read.ok().flatten())
}

/// Writes the canonical form.
pub fn canonical(file: &[u8], out: &mut [u8]) -> Answer {
    answered(read_file(file).and_then(|sections| write_canonical(&sections, out)))
}

/// Checks a file, and makes the card of its canonical form.
pub fn open(file: &[u8]) -> Edited {
    opened(read_file(file).map(|sections| card_of(&canonical_order(&sections))))
}

/// Writes the canonical form of the file's content and one device more.
pub fn add_device(
    file: &[u8],
    card: Card,
    id: u32,
    version: u16,
    flags: u16,
    payload: &[u8],
    out: &mut [u8],
) -> Edited {
    let key = (id, version, flags);
    edited(card, try_device(file, card, key, payload, |parts| Wish::Add(parts), out))
}

/// Writes the canonical form of the file's content and one disk more.
pub fn add_disk(
    file: &[u8],
    card: Card,
    id: u32,
    base: &[u8],
    overlay: &[u8],
    out: &mut [u8],
) -> Edited {
    edited(card, try_add_disk(file, card, id, base, overlay, out))
}

/// Writes the canonical form of the file's content without one of its devices.
pub fn remove_device(
    file: &[u8],
    card: Card,
    id: u32,
    version: u16,
    flags: u16,
    out: &mut [u8],
) -> Edited {
    edited(card, try_remove(file, card, device(id, version, flags), out))
}

/// Writes the canonical form of the file's content without one of its disks.
pub fn remove_disk(file: &[u8], card: Card, id: u32, out: &mut [u8]) -> Edited {
    edited(card, try_remove(file, card, disk(id), out))
}

/// Writes the canonical form of the file's content with another payload in one of its devices.
pub fn replace_device(
    file: &[u8],
    card: Card,
    id: u32,
    version: u16,
    flags: u16,
    payload: &[u8],
    out: &mut [u8],
) -> Edited {
    let key = (id, version, flags);
    edited(card, try_device(file, card, key, payload, |parts| Wish::Replace(parts), out))
}

// Reading.

pub(crate) fn read_file(file: &[u8]) -> Taken<Vec<Section<'_>>> {
    read_header(file)?;
    let mut sections = Vec::new();
    let mut at = HEADER.len();
    while at < file.len() {
        let section = read_section(file, at, &sections)?;
        at += section.bytes.len();
        sections.push(section);
    }
    Ok(sections)
}

/// The length of a file, and its header.
pub(crate) fn read_header(file: &[u8]) -> Taken<()> {
    ask(file.len() <= MOST_FILE, SIZE, 0)?;
    ask(file.len() >= HEADER.len(), SHORT, 0)?;
    for (start, end, number) in
        [(0, 8, MAGIC), (8, 10, VERSION), (10, 11, ENDIAN), (11, 12, RESERVED), (12, 16, RESERVED)]
    {
        ask(file[start..end] == HEADER[start..end], number, start)?;
    }
    Ok(())
}

/// Reads the section at `start`, which comes after the sections `before`.
pub(crate) fn read_section<'a>(
    file: &'a [u8],
    start: usize,
    before: &[Section],
) -> Taken<Section<'a>> {
    let rest = &file[start..];
    ask(rest.len() >= SECTION_HEADER, CUT, start)?;
    ask(before.len() < MOST_SECTIONS, MANY, start)?;
    let length = u64_at(rest, 8);
    ask(length <= (rest.len() - SECTION_HEADER) as u64, CUT, start)?;
    let bytes = &rest[..SECTION_HEADER + length as usize];
    let id = u32_at(bytes, 0);
    if !is_known(id) {
        return Ok(Section { id, start, bytes, list: None });
    }
    let version = u16_at(bytes, 4);
    ask(takes_version(id, version), SECVER, start + 4)?;
    ask(u16_at(bytes, 6) == 0, RESERVED, start + 6)?;
    ask(before.iter().all(|other| !excludes(other.id, id)), TWICE, start)?;
    ask(id != DEVICES || length <= MOST_DEVICES_PAYLOAD, LIMIT, start + 8)?;
    let payload = Cursor::new(file, start + SECTION_HEADER, start + bytes.len());
    let list = read_payload(id, version, payload)?;
    Ok(Section { id, start, bytes, list })
}

fn is_known(id: u32) -> bool {
    (META..=MMUS).contains(&id)
}

fn takes_version(id: u32, version: u16) -> bool {
    match id {
        CPU | MMU | CPUS | MMUS => version == 1 || version == 2,
        _ => version == 1,
    }
}

/// Whether two known sections cannot stand in one file.
fn excludes(one: u32, other: u32) -> bool {
    one == other || matches!((one, other), (CPU, CPUS) | (CPUS, CPU) | (MMU, MMUS) | (MMUS, MMU))
}

/// Reads a known section's payload, and its entries if it is a list. What follows the last entry, or META's last
/// field, is its tail.
fn read_payload<'a>(id: u32, version: u16, mut payload: Cursor<'a>) -> Taken<Option<List<'a>>> {
    match id {
        META => {
            read_meta(&mut payload)?;
        }
        CPU => {
            let length = payload.left();
            let start = payload.place();
            ask(is_cpu_length(version, length), SHAPE, start)?;
            read_cpu_state(version, length, start, &mut payload)?;
        }
        MMU => ask(payload.left() == mmu_length(version), SHAPE, payload.place())?,
        DEVICES => return read_list(Kind::Devices, &mut payload).map(Some),
        DISKS => return read_list(Kind::Disks, &mut payload).map(Some),
        RAM => {}
        CPUS => return read_list(Kind::Cpus(version), &mut payload).map(Some),
        MMUS => return read_list(Kind::Mmus(version), &mut payload).map(Some),
        _ => unreachable!("a known id"),
    }
    Ok(None)
}

/// META: id; parent, if the byte before it is 1; time; label, if the byte before it is 1.
fn read_meta(payload: &mut Cursor) -> Taken<Meta> {
    let mut meta = Meta { id: payload.u64()?, ..Meta::default() };
    if payload.byte_to(1)? == 1 {
        meta.parent = Some(payload.u64()?);
    }
    meta.time = payload.u64()?;
    if payload.byte_to(1)? == 1 {
        let start = payload.place() + 4;
        payload.text(MOST_LABEL)?;
        meta.label = Some((start as u64, (payload.place() - start) as u64));
    }
    Ok(meta)
}

// Tables.

fn write_sections(sections: &[Section], table: &mut [u8]) -> Taken<usize> {
    let needed = RECORD * sections.len();
    let mut output = Output::with_room(table, needed)?;
    for (section, position) in sections.iter().zip(0..) {
        let (offset, length) = (section.start + SECTION_HEADER, u64_at(section.bytes, 8));
        output.put(&record(&section.bytes[..8], offset as u64, length, position));
    }
    Ok(needed)
}

fn list_table(
    file: &[u8],
    id: u32,
    record: fn(Entry) -> [u8; RECORD],
    table: &mut [u8],
) -> Taken<usize> {
    let sections = read_file(file)?;
    let list = sections.into_iter().find(|section| section.id == id).and_then(|s| s.list);
    write_table(&list.unwrap_or_default(), record, table)
}

/// u32 id, u16 version and u16 flags stand so in the entry; then the payload's place and length.
fn device_record(entry: Entry) -> [u8; RECORD] {
    record(&entry.bytes[..8], entry.start as u64 + 16, u64_at(entry.bytes, 8), entry.position)
}

/// u32 id and u32 base length stand so in the entry; then the base's place, and the overlay's length
/// with a u32 0 behind it.
fn disk_record(entry: Entry) -> [u8; RECORD] {
    let base_length = u32_at(entry.bytes, 4) as usize;
    let overlay_length = u32_at(entry.bytes, 8 + base_length);
    record(&entry.bytes[..8], entry.start as u64 + 8, u64::from(overlay_length), entry.position)
}

/// u32 APIC id and u32 state length stand so in the entry; then the state's place, and the blob's length,
/// a u64 behind the state.
fn cpu_record(entry: Entry) -> [u8; RECORD] {
    let state_length = u32_at(entry.bytes, 4) as usize;
    let blob_length = u64_at(entry.bytes, 8 + state_length);
    record(&entry.bytes[..8], entry.start as u64 + 8, blob_length, entry.position)
}

/// u32 APIC id, and the state behind it up to the entry's end.
fn mmu_record(entry: Entry) -> [u8; RECORD] {
    let mut head = [0; 8];
    head[..4].copy_from_slice(&entry.bytes[..4]);
    head[4..].copy_from_slice(&(entry.bytes.len() as u32 - 4).to_le_bytes());
    record(&head, entry.start as u64 + 4, 0, entry.position)
}

// The canonical form.

fn write_canonical(sections: &[Section], out: &mut [u8]) -> Taken<usize> {
    let form = Canonical::of(sections);
    let mut output = Output::with_room(out, form.length)?;
    put_canonical(&form, &mut output);
    Ok(form.length)
}

/// A canonical form before it is written: its sections in order, and how long it is.
pub(crate) struct Canonical<'s, 'a> {
    ordered: Vec<&'s Section<'a>>,
    pub(crate) length: usize,
}

impl<'s, 'a> Canonical<'s, 'a> {
    pub(crate) fn of(sections: &'s [Section<'a>]) -> Self {
        let ordered = canonical_order(sections);
        let length = length_of(&ordered);
        Canonical { ordered, length }
    }
}

pub(crate) fn put_canonical(form: &Canonical, output: &mut Output) {
    output.put(HEADER);
    for section in &form.ordered {
        put_section(section, output);
    }
}

/// Known sections in ascending id, then the others in the order found, without the lists that count as absent.
pub(crate) fn canonical_order<'s, 'a>(sections: &'s [Section<'a>]) -> Vec<&'s Section<'a>> {
    let mut ordered: Vec<_> = sections.iter().filter(|section| !section.is_absent()).collect();
    ordered.sort_by_key(|section| section.rank());
    ordered
}

/// The length of a file of these sections.
pub(crate) fn length_of(sections: &[&Section]) -> usize {
    HEADER.len() + sections.iter().map(|section| section.bytes.len()).sum::<usize>()
}

/// The card of a canonical file of these sections.
pub(crate) fn card_of(sections: &[&Section]) -> Card {
    let devices = sections.iter().find(|section| section.id == DEVICES);
    let devices = devices.and_then(|section| section.list.as_deref()).unwrap_or_default();
    Card {
        length: length_of(sections) as u64,
        sections: sections.len() as u64,
        devices: devices.len() as u64,
        payloads: devices.iter().map(|entry| u64_at(entry.bytes, 8)).sum(),
    }
}

impl Section<'_> {
    /// A list with no entries and no tail counts as absent.
    fn is_absent(&self) -> bool {
        self.list.as_ref().is_some_and(|list| list.is_empty() && self.tail(list).is_empty())
    }

    /// What follows the entries of a list.
    pub(crate) fn tail(&self, list: &List) -> &[u8] {
        let entries: usize = list.iter().map(|entry| entry.bytes.len()).sum();
        &self.bytes[SECTION_HEADER + 4 + entries..]
    }

    pub(crate) fn rank(&self) -> u32 {
        if is_known(self.id) {
            self.id
        } else {
            MMUS + 1
        }
    }
}

/// Writes a section: a list with its header and its count as they are, its entries in key order, and its tail.
pub(crate) fn put_section(section: &Section, output: &mut Output) {
    match &section.list {
        None => output.put(section.bytes),
        Some(list) => {
            output.put(&section.bytes[..SECTION_HEADER + 4]);
            for entry in list {
                output.put(entry.bytes);
            }
            output.put(section.tail(list));
        }
    }
}

// Edits: adding, removing, replacing.

/// One entry of a list that is to be changed: the section it belongs in, its kind and its key.
struct Target {
    id: u32,
    kind: Kind,
    key: u64,
}

fn device(id: u32, version: u16, flags: u16) -> Target {
    Target { id: DEVICES, kind: Kind::Devices, key: device_key(id, version, flags) }
}

fn disk(id: u32) -> Target {
    Target { id: DISKS, kind: Kind::Disks, key: u64::from(id) }
}

/// What is to be done there; an entry's bytes come in parts.
#[derive(Clone, Copy)]
enum Wish<'a> {
    Add(&'a [&'a [u8]]),
    Remove,
    Replace(&'a [&'a [u8]]),
}

impl<'a> Wish<'a> {
    /// The parts of the entry that comes.
    fn parts(self) -> &'a [&'a [u8]] {
        match self {
            Wish::Add(parts) | Wish::Replace(parts) => parts,
            Wish::Remove => &[],
        }
    }

    fn length(self) -> u64 {
        self.parts().iter().map(|part| part.len() as u64).sum()
    }
}

fn try_device(
    file: &[u8],
    card: Card,
    (id, version, flags): (u32, u16, u16),
    payload: &[u8],
    wish: for<'a> fn(&'a [&'a [u8]]) -> Wish<'a>,
    out: &mut [u8],
) -> Taken<(usize, Card)> {
    let sections = read_file(file)?;
    let length = payload.len() as u64;
    ask(length <= MOST_PAYLOAD, LIMIT, 0)?;
    let parts: [&[u8]; 5] = [
        &id.to_le_bytes(),
        &version.to_le_bytes(),
        &flags.to_le_bytes(),
        &length.to_le_bytes(),
        payload,
    ];
    edit(&sections, card, device(id, version, flags), wish(&parts), out)
}

fn try_add_disk(
    file: &[u8],
    card: Card,
    id: u32,
    base: &[u8],
    overlay: &[u8],
    out: &mut [u8],
) -> Taken<(usize, Card)> {
    let sections = read_file(file)?;
    let most = MOST_IMAGE as usize;
    ask(base.len() <= most && overlay.len() <= most, LIMIT, 0)?;
    ask(is_text(base) && is_text(overlay), TEXT, 0)?;
    let parts: [&[u8]; 5] = [
        &id.to_le_bytes(),
        &(base.len() as u32).to_le_bytes(),
        base,
        &(overlay.len() as u32).to_le_bytes(),
        overlay,
    ];
    edit(&sections, card, disk(id), Wish::Add(&parts), out)
}

fn try_remove(file: &[u8], card: Card, target: Target, out: &mut [u8]) -> Taken<(usize, Card)> {
    let sections = read_file(file)?;
    edit(&sections, card, target, Wish::Remove, out)
}

/// Writes the canonical form of the sections with the entry put into its list, taken out or exchanged.
fn edit(
    sections: &[Section],
    card: Card,
    target: Target,
    wish: Wish,
    out: &mut [u8],
) -> Taken<(usize, Card)> {
    let ordered = canonical_order(sections);
    let before_edit = card_of(&ordered);
    let (others, home): (Vec<&Section>, Vec<&Section>) =
        ordered.into_iter().partition(|section| section.id != target.id);
    let none = List::new();
    let list = home.first().and_then(|home| home.list.as_ref());
    let list = list.unwrap_or(&none);
    let (before, rest) = list.split_at(list.partition_point(|entry| entry.key < target.key));
    let there = rest.first().filter(|entry| entry.key == target.key);
    match wish {
        Wish::Add(_) => ask(there.is_none(), HAVE, 0)?,
        Wish::Remove | Wish::Replace(_) => ask(there.is_some(), ABSENT, 0)?,
    }
    let after = &rest[usize::from(there.is_some())..];
    let tail = home.first().map_or(&[][..], |home| home.tail(list));

    let old_payload = home.first().map_or(4, |home| home.bytes.len() - SECTION_HEADER) as u64;
    let gone = there.map_or(0, |entry| entry.bytes.len() as u64);
    let changed = Changed {
        id: target.id,
        before,
        new: wish.parts(),
        after,
        tail,
        payload: old_payload - gone + wish.length(),
    };
    let count = changed.count();
    let written = count > 0 || !tail.is_empty();
    let home_length = if written { SECTION_HEADER + changed.payload as usize } else { 0 };
    let needed = length_of(&others) + home_length;

    if let Wish::Add(_) = wish {
        ask(count <= target.kind.most() as usize, LIMIT, 0)?;
    }
    if !matches!(wish, Wish::Remove) {
        ask(target.id != DEVICES || changed.payload <= MOST_DEVICES_PAYLOAD, LIMIT, 0)?;
    }
    if let Wish::Add(_) = wish {
        ask(others.len() < MOST_SECTIONS, MANY, 0)?;
    }
    if !matches!(wish, Wish::Remove) {
        ask(needed <= MOST_FILE, SIZE, 0)?;
    }

    let mut output = Output::with_room(out, needed)?;
    let mut after_edit = before_edit;
    after_edit.length = needed as u64;
    after_edit.sections = others.len() as u64 + u64::from(written);
    if target.id == DEVICES {
        after_edit.devices = count as u64;
        after_edit.payloads += wish.length().saturating_sub(16);
        after_edit.payloads -= there.map_or(0, |entry| u64_at(entry.bytes, 8));
    }
    let card = card.moved(before_edit, after_edit)?;

    output.put(HEADER);
    let (front, back) = others.split_at(others.partition_point(|other| other.rank() < target.id));
    for section in front {
        put_section(section, &mut output);
    }
    if written {
        changed.put(&mut output);
    }
    for section in back {
        put_section(section, &mut output);
    }
    Ok((needed, card))
}

/// A list after an edit: the entries before the place, the new one's parts, the entries behind it, its
/// tail, and how long its payload is.
struct Changed<'a> {
    id: u32,
    before: &'a [Entry<'a>],
    new: &'a [&'a [u8]],
    after: &'a [Entry<'a>],
    tail: &'a [u8],
    payload: u64,
}

impl Changed<'_> {
    fn count(&self) -> usize {
        self.before.len() + usize::from(!self.new.is_empty()) + self.after.len()
    }

    /// Writes its section, of version 1.
    fn put(&self, output: &mut Output) {
        output.put(&self.id.to_le_bytes());
        output.put(&[1, 0, 0, 0]);
        output.put(&self.payload.to_le_bytes());
        output.put(&(self.count() as u32).to_le_bytes());
        for entry in self.before {
            output.put(entry.bytes);
        }
        for part in self.new {
            output.put(part);
        }
        for entry in self.after {
            output.put(entry.bytes);
        }
        output.put(self.tail);
    }
}

// What readiness looks at.

/// The devices and the disks of a file that is taken, each in key order.
pub(crate) fn devices_and_disks(file: &[u8]) -> Taken<(List<'_>, List<'_>)> {
    let mut sections = read_file(file)?;
    let mut list_of = |id| {
        let section = sections.iter_mut().find(|section| section.id == id);
        section.and_then(|section| section.list.take()).unwrap_or_default()
    };
    Ok((list_of(DEVICES), list_of(DISKS)))
}
