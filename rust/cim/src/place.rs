//! Where the place of a refusal lies, in words.
//!
//! Nothing is read here by itself: all of it comes of asking the library again, about the file cut before the place. A file
//! that is cut inside a section is CUT at that section's start. A list that is cut and counts fewer entries is taken, or has
//! bytes left over where the next entry starts; one that is cut before that does not fit. What no call says is not said.

use crate::json::Object;
use crate::names;
use crate::shown::{name_of, size};
use cimbrolau::snapshot::{self, Device, DeviceKey, Section};
use cimbrolau::{region, wrapper, Card, Kind, Message, Refusal, Result};
use std::ffi::OsStr;
use std::fmt::Write;
use std::os::unix::ffi::OsStrExt;

/// Bytes in the header of a file, of a section and of a wrapper.
const HEADER: usize = 16;

/// The most entries that a list has.
const MOST_ENTRIES: u32 = 4096;

/// Where the place of a snapshot's refusal lies; none where no call says it.
pub fn in_snapshot(file: &[u8], refusal: Refusal) -> Option<String> {
    let place = usize::try_from(refusal.place).ok()?;
    match refusal.kind {
        Kind::Size => return None,
        Kind::Short => return Some(format!("it has {}", size(file.len() as u64))),
        _ if place < HEADER => return Some("the file's header".into()),
        _ => (),
    }
    let start = section_start(file, place)?;
    let before = snapshot::sections(&file[..start]).ok()?;
    let number = before.len();
    let Some(head) = Head::read(file, start) else {
        let there = file.len() - start;
        return Some(format!("section {number} starts here, with {there} of a header's 16 bytes"));
    };
    let name = names::section_word(head.key.id);
    let words = format!("section {number} ({})", head.words());
    Some(match place - start {
        0 => whole_section(file, start, refusal.kind, &head, &words, &before),
        4 => format!("{words}: its version"),
        6 => format!("{words}: its flags"),
        8 => format!("{words}: its length, {}", head.length),
        HEADER.. => {
            let behind = place - start - HEADER;
            in_payload(file, start, refusal, head.key.id)
                .map(|lies| format!("{name}, {lies}"))
                .unwrap_or_else(|| format!("{name}, byte {behind} of its payload"))
        }
        _ => words,
    })
}

/// Where the section starts that a place is charged to: the file cut at the place is whole up to there. A place may be the
/// section's end; then one byte less is asked about.
fn section_start(file: &[u8], place: usize) -> Option<usize> {
    [place, place - 1].into_iter().find_map(|end| match snapshot::check(file.get(..end)?) {
        Ok(()) => Some(end),
        Err(Refusal { kind: Kind::Cut, place }) => usize::try_from(place).ok(),
        Err(_) => None,
    })
}

/// The header of a section that the table of sections does not show, because its file is refused.
pub struct Head {
    key: DeviceKey,
    pub length: u64,
}

impl Head {
    /// Read by the library: a section's header has the layout of a device's, and its length is a number of 8 bytes, as a
    /// message carries one.
    pub fn read(file: &[u8], start: usize) -> Option<Head> {
        let key = device_key(file.get(start..start + 8)?)?;
        let mut message = Message::FrameReady { frame_id: 0 }.write().ok()?;
        let number = message.len() - 8;
        message[number..].copy_from_slice(file.get(start + 8..start + HEADER)?);
        match Message::read(&message) {
            Ok(Message::FrameReady { frame_id: length }) => Some(Head { key, length }),
            _ => None,
        }
    }

    pub fn words(&self) -> String {
        let DeviceKey { id, version, flags } = self.key;
        let section = Section { id, version, flags, offset: 0, length: 0, position: 0 };
        names::section_words(&section)
    }

    /// What it says, as an object.
    pub fn object(&self) -> Object {
        let DeviceKey { id, version, flags } = self.key;
        Object::new("section")
            .number("id", id)
            .number("version", version)
            .number("flags", flags)
            .number("length", self.length)
    }
}

/// The key that a device with these first eight bytes has.
fn device_key(bytes: &[u8]) -> Option<DeviceKey> {
    let mut file = snapshot::add_device(&snapshot::EMPTY, Card::EMPTY, (0, 0, 0), &[]).ok()?.0;
    let entry = snapshot::devices(&file).ok()?.first()?.offset as usize - HEADER;
    file[entry..entry + 8].copy_from_slice(bytes);
    snapshot::devices(&file).ok()?.first().map(Device::key)
}

/// The id that a disk with these first four bytes has.
fn disk_id(bytes: &[u8]) -> Option<u32> {
    let mut file = snapshot::add_disk(&snapshot::EMPTY, Card::EMPTY, 0, b"", b"").ok()?.0;
    let entry = snapshot::disks(&file).ok()?.first()?.base_offset as usize - 8;
    file[entry..entry + 4].copy_from_slice(bytes);
    snapshot::disks(&file).ok()?.first().map(|disk| disk.id)
}

/// The APIC id that an MMU with these first four bytes has; a CPU's stands in the same place.
fn apic_id(bytes: &[u8]) -> Option<u32> {
    let mut file = snapshot::EMPTY.to_vec();
    file.extend([8, 0, 0, 0, 1, 0, 0, 0, 76, 0, 0, 0, 0, 0, 0, 0, 1, 0, 0, 0]);
    file.extend(bytes);
    file.resize(2 * HEADER + 76, 0);
    snapshot::mmus(&file).ok()?.first().map(|mmu| mmu.apic)
}

/// What is said of a refusal at a section's start.
fn whole_section(
    file: &[u8],
    start: usize,
    kind: Kind,
    head: &Head,
    words: &str,
    before: &[Section],
) -> String {
    match kind {
        Kind::Cut => {
            let there = (file.len() - start - HEADER) as u64;
            let missing = head.length.saturating_sub(there);
            let length = head.length;
            format!("{words} has {length} bytes, of which {there} are there: {missing} are missing")
        }
        Kind::Many if file[start..].iter().all(|byte| *byte == 0) => {
            format!("{words}; from here on all bytes are 0, and 16 of them are a section of id 0")
        }
        Kind::Twice => {
            let other = before.iter().find(|section| excludes(section.id, head.key.id));
            let other = other.map_or_else(String::new, |section| {
                let name = names::section_word(section.id);
                format!(", and section {} is {name}", section.position)
            });
            format!("{words}{other}")
        }
        _ => words.to_string(),
    }
}

/// Whether a file has only one of two sections: those of one id, one state beside a list of them.
fn excludes(one: u32, other: u32) -> bool {
    one == other || matches!((one.min(other), one.max(other)), (2, 7) | (3, 8))
}

/// Where a place lies in the payload of a section; none where no call says it.
fn in_payload(file: &[u8], start: usize, refusal: Refusal, id: u32) -> Option<String> {
    let place = refusal.place as usize;
    let cut = &mut Cut::of_section(file, start, place)?;
    match id {
        4 => {
            let key = |entry: usize| device_key(file.get(entry..entry + 8)?);
            let words = &|entry: usize| key(entry).map(names::device_words);
            let same = &|before: &[u8], entry: usize| {
                let (key, devices) = (key(entry)?, snapshot::devices(before).ok()?);
                devices.iter().find(|device| device.key() == key).map(|device| device.position)
            };
            in_list(cut, refusal, &Keys { words, same })
        }
        5 => {
            let id = |entry: usize| disk_id(file.get(entry..entry + 4)?);
            let words = &|entry: usize| id(entry).map(|id| format!("disk {id}"));
            let same = &|before: &[u8], entry: usize| {
                let (id, disks) = (id(entry)?, snapshot::disks(before).ok()?);
                disks.iter().find(|disk| disk.id == id).map(|disk| disk.position)
            };
            in_list(cut, refusal, &Keys { words, same })
        }
        7 | 8 => {
            let apic = |entry: usize| apic_id(file.get(entry..entry + 4)?);
            let what = if id == 7 { "CPU" } else { "MMU" };
            let words = &|entry: usize| apic(entry).map(|apic| format!("{what} {apic}"));
            let same = &|before: &[u8], entry: usize| {
                let apic = apic(entry)?;
                let cpus = snapshot::cpus(before).ok()?;
                let mmus = snapshot::mmus(before).ok()?;
                let of_cpu = cpus.iter().find(|cpu| cpu.apic == apic).map(|cpu| cpu.position);
                let of_mmu = mmus.iter().find(|mmu| mmu.apic == apic).map(|mmu| mmu.position);
                of_cpu.or(of_mmu)
            };
            in_list(cut, refusal, &Keys { words, same })
        }
        _ if refusal.kind == Kind::Text => {
            let label = cut.text_start(place, None)?;
            Some(format!("its label{}", behind_text(cut, refusal, label)))
        }
        _ => None,
    }
}

/// Where the place of a wrapper's refusal lies.
pub fn in_wrapper(bytes: &[u8], refusal: Refusal) -> Option<String> {
    let place = usize::try_from(refusal.place).ok()?;
    match refusal.kind {
        Kind::Size => None,
        Kind::Short => Some(format!("it has {}", size(bytes.len() as u64))),
        _ if place < HEADER => Some("the wrapper's header".into()),
        _ => in_list(&mut Cut::of_wrapper(bytes, place)?, refusal, &UNSAID),
    }
}

/// Where the place of a region's refusal lies. The region is asked about with fewer queues, and is as it was afterwards.
pub fn in_region(region: &mut [u8], refusal: Refusal) -> Option<String> {
    let place = usize::try_from(refusal.place).ok()?;
    if place < HEADER || refusal.kind != Kind::Region {
        return Some("the region's header".into());
    }
    let count = HEADER - 4..HEADER;
    let own = region.get(count.clone())?.to_vec();
    // With so many queues and no fewer, the same field is the first wrong one.
    let queues = (1..=region::MOST_QUEUES).find(|queues| {
        region[count.clone()].copy_from_slice(&(*queues as u32).to_le_bytes());
        region::check(region) == Err(refusal)
    });
    region[count].copy_from_slice(&own);
    let (queue, field) = (place / HEADER - 1, place % HEADER);
    Some(match (queues?, field) {
        (queues, 4) if queue < queues => format!("queue {queue}: its offset"),
        (queues, 8) if queue < queues => format!("queue {queue}: its capacity"),
        (queues, 12) if queue < queues => format!("queue {queue}: its reserved number"),
        (queues, _) => format!("queue {}: the header of its ring", queues - 1),
    })
}

/// A list that is cut at a place, and a count that can be set: of it the library is asked what it would be with fewer
/// entries.
struct Cut {
    bytes: Vec<u8>,
    /// What a place here has to be moved by to be one of the input.
    moved: usize,
    /// Where the length of the section stands, if the list stands in one.
    length: Option<usize>,
    /// Where the list's count stands.
    count: usize,
    check: fn(&[u8]) -> Result<()>,
}

impl Cut {
    /// A file of nothing but the section up to the place.
    fn of_section(file: &[u8], start: usize, place: usize) -> Option<Cut> {
        let part = file.get(start..place)?;
        let mut bytes = Vec::new();
        bytes.try_reserve_exact(HEADER + part.len()).ok()?;
        bytes.extend_from_slice(&snapshot::EMPTY);
        bytes.extend_from_slice(part);
        let (length, count) = (Some(HEADER + 8), 2 * HEADER);
        Some(Cut { bytes, moved: start - HEADER, length, count, check: snapshot::check })
    }

    fn of_wrapper(wrapper: &[u8], place: usize) -> Option<Cut> {
        let part = wrapper.get(..place)?;
        let mut bytes = Vec::new();
        bytes.try_reserve_exact(part.len()).ok()?;
        bytes.extend_from_slice(part);
        Some(Cut { bytes, moved: 0, length: None, count: HEADER, check: wrapper::check })
    }

    /// Looks at it up to `end`, a place of the input, with so many entries or as many as it says itself.
    fn look<T>(&mut self, end: usize, entries: Option<u32>, at: impl FnOnce(&[u8]) -> T) -> T {
        let end = end - self.moved;
        if let Some(at) = self.length {
            let length = (end - at - 8) as u64;
            self.bytes[at..at + 8].copy_from_slice(&length.to_le_bytes());
        }
        let count = self.count..self.count + 4;
        let (Some(entries), Some(own)) = (entries, self.bytes.get(count.clone())) else {
            return at(&self.bytes[..end]);
        };
        let own = own.to_vec();
        self.bytes[count.clone()].copy_from_slice(&entries.to_le_bytes());
        let seen = at(&self.bytes[..end]);
        self.bytes[count].copy_from_slice(&own);
        seen
    }

    /// What the library says of it so.
    fn ask(&mut self, end: usize, entries: Option<u32>) -> Result<()> {
        let moved = self.moved as u64;
        let check = self.check;
        self.look(end, entries, check)
            .map_err(|Refusal { kind, place }| Refusal { kind, place: place + moved })
    }

    /// Up to where the list is taken with so many entries, at most up to `end`: up to where they end, or, as far as what
    /// follows a list is taken with it, further. None where they do not stand before `end`.
    fn taken(&mut self, entries: u32, end: usize) -> Option<usize> {
        let end = match self.ask(end, Some(entries)) {
            Ok(()) => return Some(end),
            Err(Refusal { kind: Kind::Shape, place }) => place as usize,
            Err(_) => return None,
        };
        self.ask(end, Some(entries)).is_ok().then_some(end)
    }

    /// Where the entry of a number starts, if all before it stand before `end`: the first place up to which they are taken.
    fn entry(&mut self, number: u32, end: usize) -> Option<usize> {
        let mut start = self.taken(number, end)?;
        let mut low = self.count + self.moved + 4;
        while low < start {
            let middle = low + (start - low) / 2;
            match self.ask(middle, Some(number)) {
                Ok(()) => start = middle,
                Err(_) => low = middle + 1,
            }
        }
        Some(start)
    }

    /// The last entry that starts before `end` or there, and where.
    fn last(&mut self, end: usize) -> Option<(u32, usize)> {
        let (mut low, mut high) = (0, MOST_ENTRIES + 1);
        while high - low > 1 {
            let middle = low + (high - low) / 2;
            match self.taken(middle, end) {
                Some(_) => low = middle,
                None => high = middle,
            }
        }
        Some((low, self.entry(low, end)?))
    }

    /// Where the text starts that breaks at a place: cut there, it does not fit. A text that ends early is whole there,
    /// and is cut by one byte more.
    fn text_start(&mut self, place: usize, entries: Option<u32>) -> Option<usize> {
        [place, place - 1].into_iter().find_map(|end| match self.ask(end, entries) {
            Err(Refusal { kind: Kind::Shape, place }) => Some(place as usize),
            _ => None,
        })
    }

    /// The bytes of the input between two places before the cut.
    fn between(&self, start: usize, end: usize) -> &[u8] {
        self.bytes.get(start - self.moved..end - self.moved).unwrap_or(&[])
    }
}

/// What is said of the entries of a list by their keys.
struct Keys<'a> {
    /// An entry's key in words, by where it starts in the input.
    words: &'a dyn Fn(usize) -> Option<String>,
    /// The position of the entry of a snapshot that has the key of the one that starts there in the input.
    same: &'a dyn Fn(&[u8], usize) -> Option<u32>,
}

/// Of a list whose keys no call shows.
const UNSAID: Keys = Keys { words: &|_| None, same: &|_, _| None };

/// Where a place lies in a list.
fn in_list(cut: &mut Cut, refusal: Refusal, keys: &Keys) -> Option<String> {
    let place = refusal.place as usize;
    if place == cut.count + cut.moved {
        return Some("its count".into());
    }
    let (number, start) = cut.last(place)?;
    if place == start && refusal.kind == Kind::Shape && cut.ask(place, None).is_ok() {
        return Some(format!("bytes left over behind its {}", counted(number, "entry", "entries")));
    }
    let mut lies = format!("entry {number}");
    if place == start && refusal.kind == Kind::Shape {
        return Some(lies + ", which starts here and does not fit"); // nor need its key be there
    }
    // Writing to a string does not fail.
    if let Some(key) = (keys.words)(start) {
        let _ = write!(lies, " ({key})");
    }
    match refusal.kind {
        Kind::Key => {
            let same = cut.look(start, Some(number), |before| (keys.same)(before, start));
            if let Some((other, at)) =
                same.and_then(|other| Some((other, cut.entry(other, start)?)))
            {
                let _ = write!(lies, ", the same key as entry {other} at {at}");
            }
        }
        Kind::Text => {
            let text = cut.text_start(place, Some(number + 1))?;
            let which = if text == start + 8 { "base" } else { "overlay" };
            let _ = write!(lies, ", its {which} image{}", behind_text(cut, refusal, text));
        }
        _ if place > start => {
            let _ = write!(lies, ", its byte {}", place - start);
        }
        _ => (),
    }
    Some(lies)
}

/// What stands in a text before it breaks.
fn behind_text(cut: &Cut, refusal: Refusal, start: usize) -> String {
    let before = cut.between(start, refusal.place as usize);
    format!(", which starts at {start}, behind \"{}\"", text(before))
}

/// Bytes as text, those that are none escaped.
fn text(bytes: &[u8]) -> String {
    name_of(OsStr::from_bytes(bytes))
}

/// A number and the word for one or for several.
fn counted(number: u32, one: &str, several: &str) -> String {
    format!("{number} {}", if number == 1 { one } else { several })
}

/// The words compared with a walk by hand, over files with one fault each.
#[cfg(test)]
mod tests {
    use super::*;

    const SAMPLE: &[u8] = include_bytes!("../../../samples/panel.aerosnap");

    fn number(file: &[u8], at: usize, width: usize) -> usize {
        let mut bytes = [0; 8];
        bytes[..width].copy_from_slice(&file[at..at + width]);
        usize::try_from(u64::from_le_bytes(bytes)).unwrap_or(usize::MAX)
    }

    /// How the words have to begin, by a walk over lengths up to the place.
    fn expected(file: &[u8], Refusal { kind, place }: Refusal) -> String {
        let place = place as usize;
        if place < 16 {
            return if file.len() < 16 { "it has ".into() } else { "the file's header".into() };
        }
        let (mut at, mut section) = (16, 0);
        let whole = matches!(kind, Kind::Cut | Kind::Many | Kind::Twice);
        loop {
            if place < at + 16 {
                return format!("section {section} ");
            }
            let end = at + 16 + number(file, at + 8, 8);
            if place < end || place == end && !whole {
                return in_section(file, at, kind, place);
            }
            (at, section) = (end, section + 1);
        }
    }

    fn in_section(file: &[u8], at: usize, kind: Kind, place: usize) -> String {
        let id = number(file, at, 4) as u32;
        let name = names::section_word(id);
        let end = at + 16 + number(file, at + 8, 8);
        if !matches!(id, 4 | 5 | 7 | 8) {
            return format!("{name}, ");
        }
        let version = number(file, at + 4, 2);
        if place == at + 16 {
            return format!("{name}, its count");
        }
        let count = number(file, at + 16, 4);
        let mut entry = at + 20;
        for index in 0..count {
            // A part of `fixed` bytes, then a length of `width` bytes and so many bytes; endless where it does not fit.
            let sized = |start: usize, fixed: usize, width: usize| {
                let length = start.saturating_add(fixed);
                match length.saturating_add(width) > end {
                    true => usize::MAX,
                    false => (length + width).saturating_add(number(file, length, width)),
                }
            };
            let behind = match (id, version) {
                (4, _) => sized(entry, 8, 8),
                (5, _) => sized(sized(entry, 4, 4), 0, 4),
                (7, _) => sized(sized(entry, 4, 4), 0, 8),
                (_, 1) if entry + 72 <= end => entry + 72,
                (_, 2) if entry + 268 <= end => entry + 268,
                _ => usize::MAX,
            };
            if place < behind || place == behind && kind == Kind::Text {
                return format!("{name}, entry {index}");
            }
            entry = behind;
        }
        format!("{name}, bytes left over behind its {count} ")
    }

    fn agree(file: &[u8], refused: &mut u32) {
        if let Err(refusal) = snapshot::check(file) {
            *refused += 1;
            let said = in_snapshot(file, refusal).expect("words");
            let expected = expected(file, refusal);
            assert!(said.starts_with(&expected), "{refusal}: {said}; {expected}");
        }
    }

    #[test]
    fn every_byte_changed_and_every_cut() {
        let mut refused = 0;
        for at in 0..SAMPLE.len() {
            agree(&SAMPLE[..at], &mut refused);
            for change in [1, 2, 3, 0x0D, 0x40, 0x80, 0xFF] {
                let mut file = SAMPLE.to_vec();
                file[at] ^= change;
                agree(&file, &mut refused);
            }
        }
        assert!(refused > 1500, "{refused}");
    }

    /// The words for a region beside a walk over its descriptors.
    #[test]
    fn regions_with_faults_at_random() {
        let mut random = differential::random::Random::new(28);
        let mut refused = 0;
        for number in 0..20_000 {
            let made = differential::regions::any(&mut random);
            let mut region = differential::damage::several(&mut random, &made, 1 + number % 2);
            let Err(refusal) = region::check(&region) else { continue };
            refused += 1;
            let before = region.clone();
            let said = in_region(&mut region, refusal).expect("words");
            assert_eq!(region, before);
            let expected = expected_in_region(&region, refusal.place as usize);
            assert_eq!(said, expected, "{refusal}");
        }
        assert!(refused > 5_000, "{refused}");
    }

    fn expected_in_region(region: &[u8], place: usize) -> String {
        if place < 16 {
            return "the region's header".into();
        }
        let count = number(region, 12, 4);
        let queue = (place - 16) / 16;
        if queue < count {
            let field = ["kind", "offset", "capacity", "reserved number"][place % 16 / 4];
            return format!("queue {queue}: its {field}");
        }
        let ring = (0..count).find(|queue| {
            let ring = number(region, 20 + 16 * queue, 4);
            (ring..ring + 16).contains(&place)
        });
        format!("queue {}: the header of its ring", ring.expect("a ring"))
    }

    #[test]
    fn files_with_faults_at_random() {
        let mut random = differential::random::Random::new(28);
        let mut refused = 0;
        for number in 0..20_000 {
            let made = differential::make::file(&mut random);
            let file = differential::damage::several(&mut random, &made, 1 + number % 3);
            agree(&file, &mut refused);
        }
        assert!(refused > 10_000, "{refused}");
    }

    /// A check that takes bytes behind the last entry of a list.
    fn lenient(file: &[u8]) -> Result<()> {
        let refusal = match snapshot::check(file) {
            Err(refusal) if refusal.kind == Kind::Shape => refusal,
            other => return other,
        };
        let mut shorter = file[..refusal.place as usize].to_vec();
        let length = shorter.len().saturating_sub(32) as u64;
        shorter[24..32].copy_from_slice(&length.to_le_bytes());
        snapshot::check(&shorter).map_err(|_| refusal)
    }

    /// Entries are found where bytes may follow a list as where they may not.
    #[test]
    fn entries_are_found_whatever_may_follow_them() {
        let mut many = cimbrolau::Snapshot::empty();
        for id in 0..40u32 {
            many.add_device((id, 1, 0), &vec![7; id as usize % 5]).unwrap();
        }
        let file = many.bytes().to_vec();
        let devices = snapshot::devices(&file).unwrap();
        for check in [snapshot::check, lenient] {
            for (number, device) in (0..).zip(&devices) {
                let entry = device.offset as usize - 16;
                for place in entry..entry + 16 + device.length as usize {
                    let mut cut = Cut { check, ..Cut::of_section(&file, 16, place).unwrap() };
                    assert_eq!(cut.last(place), Some((number, entry)), "{place}");
                }
            }
        }
    }

    #[test]
    fn each_kind_of_place() {
        let said = |file: &[u8]| {
            let refusal = snapshot::check(file).unwrap_err();
            (refusal.kind, in_snapshot(file, refusal).unwrap())
        };
        let section = |id: u32, version: u16, payload: &[u8]| {
            let mut bytes = id.to_le_bytes().to_vec();
            bytes.extend(version.to_le_bytes());
            bytes.extend([0, 0]);
            bytes.extend((payload.len() as u64).to_le_bytes());
            bytes.extend(payload);
            bytes
        };
        let file = |sections: &[Vec<u8>]| [&snapshot::EMPTY[..], &sections.concat()].concat();
        let ram = section(6, 1, &[0; 40]);
        let words = "section 1 (RAM, version 1, flags 0)";
        let cut = &file(&[section(9, 3, b""), ram.clone()])[..60];
        let told = format!("{words} has 40 bytes, of which 12 are there: 28 are missing");
        assert_eq!(said(cut), (Kind::Cut, told));
        let told = "section 1 starts here, with 3 of a header's 16 bytes".to_string();
        assert_eq!(said(&cut[..35]), (Kind::Cut, told));
        let twice = file(&[ram.clone(), ram.clone()]);
        assert_eq!(said(&twice), (Kind::Twice, format!("{words}, and section 0 is RAM")));
        let beside = file(&[section(8, 1, &[0; 4]), section(3, 1, &[0; 68])]);
        let told = "section 1 (MMU, version 1, flags 0), and section 0 is MMUS".to_string();
        assert_eq!(said(&beside), (Kind::Twice, told));
        let told = "section 0 (RAM, version 7, flags 0): its version".to_string();
        assert_eq!(said(&file(&[section(6, 7, b"")])), (Kind::SecVer, told));
        let zeros = [&snapshot::EMPTY[..], &[0; 65 * 16]].concat();
        let told = "section 64 (id 0, version 0, flags 0); \
            from here on all bytes are 0, and 16 of them are a section of id 0";
        assert_eq!(said(&zeros), (Kind::Many, told.to_string()));
        let state = section(2, 2, &{
            let mut state = [0; 1183];
            state[145] = 2;
            state
        });
        assert_eq!(said(&file(&[state])), (Kind::Value, "CPU, byte 145 of its payload".into()));
        let told = "MMUS, entry 1 (MMU 84215045), the same key as entry 0 at 36";
        let mmus = section(8, 1, &[&[2, 0, 0, 0][..], &[5; 72], &[5; 72]].concat());
        assert_eq!(said(&file(&[mmus])), (Kind::Key, told.to_string()));
        let label = section(1, 1, b"\0\0\0\0\0\0\0\0\0\0\0\0\0\0\0\0\0\x01\x03\0\0\0ab\xFF");
        let told = "META, its label, which starts at 54, behind \"ab\"".to_string();
        assert_eq!(said(&file(&[label])), (Kind::Text, told));
        let early = section(5, 1, b"\x01\0\0\0\x07\0\0\0\x01\0\0\0x\x02\0\0\0\xE2\x82");
        let told =
            "DISKS, entry 0 (disk 7), its overlay image, which starts at 49, behind \"\\xe2\\x82\"";
        assert_eq!(said(&file(&[early])), (Kind::Text, told.to_string()));
    }
}
