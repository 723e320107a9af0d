//! Whole shifts: adds, removals and replacements mixed, the library beside a plain map. Number, place, every byte and the
//! card, which goes from call to call, have to be the map's after each call; a refused call leaves the file and the map.

use std::cell::Cell;

use differential::compare::Comparison;
use differential::edits::{self, card};
use differential::library;
use differential::make::{self, DeviceKey, Made};
use differential::model::{Edit, Model, Numbers};
use differential::random::Random;
use differential::text;
use reference::{Answer, Card};

const MIB: usize = 1 << 20;
const LIMIT: u32 = 12;

/// The edit as the calls take it.
fn as_call(edit: &Edit) -> edits::Edit<'_> {
    match edit {
        Edit::AddDevice(key, payload) => edits::Edit::AddDevice(*key, payload),
        Edit::AddDisk(id, base, overlay) => edits::Edit::AddDisk(*id, base, overlay),
        Edit::RemoveDevice(key) => edits::Edit::RemoveDevice(*key),
        Edit::RemoveDisk(id) => edits::Edit::RemoveDisk(*id),
        Edit::ReplaceDevice(key, payload) => edits::Edit::ReplaceDevice(*key, payload),
    }
}

/// The map's numbers as a card.
fn card_of(model: &Model) -> Card {
    let Numbers { length, sections, devices, payloads } = model.numbers();
    card([length, sections, devices, payloads].map(|number| number as u64))
}

/// A file, its card as the calls hand it on, and the map beside them.
struct Shift {
    file: Vec<u8>,
    card: Card,
    model: Model,
}

impl Shift {
    /// From the canonical form of a file.
    fn from(made: &Made) -> Self {
        let mut file = vec![0; made.bytes.len()];
        let answer = library::canonical(&made.bytes, &mut file);
        assert_eq!(answer.number, 0);
        file.truncate(answer.place as usize);
        let model = Model::of(&file);
        assert!(model.file() == file, "the map's file is not the canonical form");
        let card = (library::EDITS.open)(&file).card;
        Shift { file, card, model }
    }

    /// One edit of both, in memory that holds the result; the number answered.
    fn edit(&mut self, run: &mut Comparison, edit: &Edit) -> u32 {
        let answer = self.model.edit(edit);
        let written = if answer.number == 0 { self.model.file() } else { vec![] };
        let after = Cell::new(self.card);
        run.told(&edit.name(), &self.file, answer, &written, |file, out| {
            let edited = (library::EDITS.edit)(file, self.card, as_call(edit), out);
            after.set(edited.card);
            edited.answer()
        });
        self.card = after.get();
        assert_eq!(self.card, card_of(&self.model), "the card after {}", edit.name());
        if answer.number == 0 {
            self.file = written;
        }
        answer.number
    }

    /// What the library's tables show of the file are the map's numbers.
    fn count(&self) {
        let table = |call: fn(&[u8], &mut [u8]) -> Answer, records: usize| {
            let mut table = vec![0; records * 32];
            let answer = call(&self.file, &mut table);
            assert_eq!((answer.number, answer.place as usize), (0, table.len()));
            table
        };
        let numbers = self.model.numbers();
        table(library::sections, numbers.sections);
        let devices = table(library::devices, numbers.devices);
        let length = |record: &[u8]| u64::from_le_bytes(record[16..24].try_into().expect("eight"));
        let payloads = devices.chunks(32).map(|record| length(record) as usize).sum();
        assert_eq!(numbers, Numbers { length: self.file.len(), payloads, ..numbers });
    }
}

/// A key that is there, one that differs from such a key in one field, or any.
fn key(random: &mut Random, keys: &[DeviceKey]) -> DeviceKey {
    if keys.is_empty() || random.once_in(3) {
        return make::device_key(random);
    }
    let (id, version, flags) = random.pick(keys);
    match random.below(8) {
        0 => (id ^ 1, version, flags),
        1 => (id, version, flags ^ 1),
        _ => (id, version, flags),
    }
}

fn disk_id(random: &mut Random, ids: &[u32]) -> u32 {
    if ids.is_empty() || random.once_in(3) {
        return make::id(random);
    }
    random.pick(ids) ^ u32::from(random.once_in(6))
}

/// A path, now and then a broken one.
fn path(random: &mut Random) -> Vec<u8> {
    let mut path = text::valid(random, 6);
    if random.once_in(40) {
        path.push(0xC0);
    }
    path
}

/// An edit of whatever is there: adds come a little more often than removals.
fn any_edit(random: &mut Random, model: &Model, most: usize) -> Edit {
    let (keys, ids) = model.names();
    let payload = |random: &mut Random| {
        let length = random.below(most);
        random.bytes(length)
    };
    match random.below(11) {
        0..=2 => Edit::AddDevice(key(random, &keys), payload(random)),
        3..=4 => Edit::RemoveDevice(key(random, &keys)),
        5..=6 => Edit::ReplaceDevice(key(random, &keys), payload(random)),
        7..=8 => Edit::AddDisk(disk_id(random, &ids), path(random), path(random)),
        _ => Edit::RemoveDisk(disk_id(random, &ids)),
    }
}

/// Shifts of some thousand edits, from the canonical forms of files of every sort.
pub fn beside_a_map(run: &mut Comparison) {
    for _ in 0..60 {
        let mut shift = Shift::from(&make::file(&mut run.random));
        for at in 0..2_500 {
            let edit = any_edit(&mut run.random, &shift.model, 24);
            shift.edit(run, &edit);
            if at % 50 == 0 {
                shift.count();
            }
        }
    }
}

/// A file with nearly as many devices, disks and sections as there may be.
fn crowded(random: &mut Random) -> Made {
    let mut made = Made::file();
    let [devices, disks, others] =
        [(4096, 4), (256, 3), (63, 3)].map(|(most, fewer)| most - random.below(fewer));
    made.section(4, 1, 0, |made| {
        made.number(4, devices as u64);
        for id in 0..devices as u32 {
            made.device((id, 1, 0), b"x");
        }
    });
    made.section(5, 1, 0, |made| {
        made.number(4, disks as u64);
        for id in 0..disks as u32 {
            made.disk(id, b"", b"");
        }
    });
    for id in 2..others as u32 {
        made.section(100 + id, 1, 0, |_| ());
    }
    made
}

/// Around the numbers of devices, disks and sections: a list may lose its last entry and come back.
pub fn at_the_counts(run: &mut Comparison) {
    for _ in 0..4 {
        let mut shift = Shift::from(&crowded(&mut run.random));
        for _ in 0..300 {
            let edit = match run.random.below(4) {
                0 => any_edit(&mut run.random, &shift.model, 3),
                1 => Edit::AddDisk(run.random.u32(), vec![], vec![]),
                _ => Edit::AddDevice((run.random.u32(), 1, 0), vec![]),
            };
            shift.edit(run, &edit);
        }
        shift.count();
    }
    for _ in 0..200 {
        let mut shift = Shift::from(&few_in_many_sections(&mut run.random));
        for _ in 0..30 {
            let edit = any_edit(&mut run.random, &shift.model, 3);
            shift.edit(run, &edit);
        }
        shift.count();
    }
}

/// Sixty-two other sections or one more, and sometimes a device: with a device and a disk they are too many.
fn few_in_many_sections(random: &mut Random) -> Made {
    let mut made = Made::file();
    for id in 0..62 + random.below(2) as u32 {
        made.section(100 + id, 1, 0, |_| ());
    }
    if random.once_in(3) {
        made.section(4, 1, 0, |made| {
            made.number(4, 1).device((3, 1, 0), b"x");
        });
    }
    made
}

/// Around the 256 MiB of DEVICES: replacements by a byte more or less, adds and removals.
pub fn at_the_lengths(run: &mut Comparison) {
    run.exact = true;
    let mut made = Made::file();
    made.section(4, 1, 0, |made| {
        made.number(4, 4);
        for id in [1, 2, 3, 4] {
            made.device((id, 1, 0), &vec![7; 64 * MIB - 100]);
        }
        made.raw(b"tail");
    });
    let mut shift = Shift::from(&made);
    // 400 bytes are left, less what the list, its entries and its tail take.
    let left = 400 - 4 - 4 * 16 - 4;
    for (edit, number) in [
        (Edit::ReplaceDevice((2, 1, 0), vec![8; 64 * MIB + 1]), LIMIT),
        (Edit::AddDevice((9, 1, 0), vec![9; left - 15]), LIMIT),
        (Edit::AddDevice((9, 1, 0), vec![9; left - 16]), 0),
        (Edit::ReplaceDevice((9, 1, 0), vec![9; left - 15]), LIMIT),
        (Edit::ReplaceDevice((9, 1, 0), vec![9; left - 17]), 0),
        (Edit::AddDevice((0, 1, 0), vec![]), LIMIT),
        (Edit::AddDisk(1, b"a".to_vec(), vec![]), 0),
        (Edit::RemoveDevice((9, 1, 0)), 0),
        (Edit::AddDevice((0, 1, 0), vec![]), 0),
    ] {
        assert_eq!(shift.edit(run, &edit), number, "{}", edit.name());
    }
    shift.count();
    run.exact = false;
}
