//! The library's calls, with the reference's signatures, recorded where a run asks for it. No other module names the library.

use cimbrolau::raw;
use reference::{
    Access, Answer, Card, Cursors, Edited, Meta, Pair, Readiness, Reading, Record, Salvaged,
};

use crate::edits::{numbers, Edit, EditCalls};
use crate::record::{changes, looks, number, salvages, writes, Bytes, Fields};
use crate::rings::RingCalls;
use crate::sheets::SheetCalls;

/// The library's answer as the reference has it: each has a type of its own.
macro_rules! answer {
    ($given:expr) => {{
        let given = $given;
        Answer { number: given.number, place: given.place }
    }};
}

pub fn check(file: &[u8]) -> Answer {
    looks("check", &[Bytes(file)], || answer!(raw::check(file)))
}

pub fn sections(file: &[u8], table: &mut [u8]) -> Answer {
    writes("sections", &[Bytes(file)], table, |table| answer!(raw::sections(file, table)))
}

pub fn devices(file: &[u8], table: &mut [u8]) -> Answer {
    writes("devices", &[Bytes(file)], table, |table| answer!(raw::devices(file, table)))
}

pub fn disks(file: &[u8], table: &mut [u8]) -> Answer {
    writes("disks", &[Bytes(file)], table, |table| answer!(raw::disks(file, table)))
}

pub fn cpus(file: &[u8], table: &mut [u8]) -> Answer {
    writes("cpus", &[Bytes(file)], table, |table| answer!(raw::cpus(file, table)))
}

pub fn mmus(file: &[u8], table: &mut [u8]) -> Answer {
    writes("mmus", &[Bytes(file)], table, |table| answer!(raw::mmus(file, table)))
}

impl Fields for raw::Meta {
    fn fields(&self) -> Vec<u64> {
        let [number, present, parent, label] =
            [self.number, self.present, self.has_parent, self.has_label].map(u64::from);
        let ids = [number, present, self.place, self.id, parent, label, self.parent, self.time];
        [&ids[..], &[self.label_place, self.label_length]].concat()
    }
}

/// What is said beside a refusal, or where there is no META, has to be 0.
pub fn meta(file: &[u8]) -> (Answer, Option<Meta>) {
    let said = looks("meta", &[Bytes(file)], || raw::meta(file));
    let numbers = [said.id, said.parent, said.time, said.label_place, said.label_length];
    let flags = [said.present, said.has_parent, said.has_label];
    assert!(flags.iter().all(|flag| *flag <= 1), "{said:?}");
    assert!(said.present == 1 || numbers == [0; 5] && flags == [0; 3], "{said:?}");
    assert!(said.has_parent == 1 || said.parent == 0, "{said:?}");
    assert!(said.has_label == 1 || said.label_place == 0 && said.label_length == 0, "{said:?}");
    let meta = Meta {
        id: said.id,
        parent: (said.has_parent == 1).then_some(said.parent),
        time: said.time,
        label: (said.has_label == 1).then_some((said.label_place, said.label_length)),
    };
    (answer!(said), (said.present == 1).then_some(meta))
}

pub fn canonical(file: &[u8], out: &mut [u8]) -> Answer {
    writes("canonical", &[Bytes(file)], out, |out| answer!(raw::canonical(file, out)))
}

/// The calls beside a card.
pub const EDITS: EditCalls = EditCalls { open, edit };

/// The library's answer with a card.
fn edited(given: raw::Edited) -> Edited {
    let raw::Edited { number, index, place, card } = given;
    let raw::Card { length, sections, devices, payloads } = card;
    Edited { number, index, place, card: Card { length, sections, devices, payloads } }
}

pub fn open(file: &[u8]) -> Edited {
    looks("open", &[Bytes(file)], || edited(raw::open(file)))
}

pub fn edit(file: &[u8], card: Card, edit: Edit, out: &mut [u8]) -> Edited {
    let mut given = vec![Bytes(file)];
    given.extend(numbers(card).map(number));
    let Card { length, sections, devices, payloads } = card;
    let card = raw::Card { length, sections, devices, payloads };
    match edit {
        Edit::AddDevice((id, version, flags), payload) => {
            given.extend([number(id), number(version), number(flags), Bytes(payload)]);
            writes("add_device", &given, out, |out| {
                edited(raw::add_device(file, card, id, version, flags, payload, out))
            })
        }
        Edit::AddDisk(id, base, overlay) => {
            given.extend([number(id), Bytes(base), Bytes(overlay)]);
            writes("add_disk", &given, out, |out| {
                edited(raw::add_disk(file, card, id, base, overlay, out))
            })
        }
        Edit::RemoveDevice((id, version, flags)) => {
            given.extend([number(id), number(version), number(flags)]);
            writes("remove_device", &given, out, |out| {
                edited(raw::remove_device(file, card, id, version, flags, out))
            })
        }
        Edit::RemoveDisk(id) => {
            given.push(number(id));
            writes("remove_disk", &given, out, |out| edited(raw::remove_disk(file, card, id, out)))
        }
        Edit::ReplaceDevice((id, version, flags), payload) => {
            given.extend([number(id), number(version), number(flags), Bytes(payload)]);
            writes("replace_device", &given, out, |out| {
                edited(raw::replace_device(file, card, id, version, flags, payload, out))
            })
        }
        Edit::AddDevices(table, store) => {
            given.extend([Bytes(table), Bytes(store)]);
            writes("add_devices", &given, out, |out| {
                edited(add_devices(file, card, table, store, out))
            })
        }
    }
}

/// Many at once over bytes, beside the same call over structs, which answers and writes the same.
fn add_devices(
    file: &[u8],
    card: raw::Card,
    table: &[u8],
    store: &[u8],
    out: &mut [u8],
) -> raw::Edited {
    let devices: Vec<_> = table.chunks_exact(24).map(new_device).collect();
    let mut other = out.to_vec();
    let of_structs = raw::add_devices_of(file, card, &devices, store, &mut other);
    let of_bytes = raw::add_devices(file, card, table, store, out);
    assert_eq!(of_structs, of_bytes, "add_devices over structs answers another than over bytes");
    assert!(other == out, "add_devices over structs writes other bytes than over bytes");
    of_bytes
}

fn new_device(record: &[u8]) -> raw::NewDevice {
    let number = |at: usize, n: usize| {
        record[at..at + n].iter().rev().fold(0, |number, &byte| number << 8 | u64::from(byte))
    };
    raw::NewDevice {
        id: number(0, 4) as u32,
        version: number(4, 2) as u16,
        flags: number(6, 2) as u16,
        place: number(8, 8),
        length: number(16, 8),
    }
}

pub fn ready(file: &[u8], list: &mut [u8]) -> Readiness {
    writes("ready", &[Bytes(file)], list, |list| {
        let given = raw::ready(file, list);
        Readiness { number: given.number, yes: given.yes, place: given.place }
    })
}

pub fn salvage(file: &[u8], out: &mut [u8], losses: &mut [u8]) -> Salvaged {
    salvages(file, out, losses, |out, losses| {
        let given = raw::salvage(file, out, losses);
        Salvaged { number: given.number, place: given.place, losses: given.losses }
    })
}

pub fn wrapper_check(wrapper: &[u8]) -> Answer {
    looks("wrapper_check", &[Bytes(wrapper)], || answer!(raw::wrapper_check(wrapper)))
}

pub fn controllers(wrapper: &[u8], table: &mut [u8]) -> Answer {
    writes("controllers", &[Bytes(wrapper)], table, |table| {
        answer!(raw::controllers(wrapper, table))
    })
}

pub fn wrapper_canonical(wrapper: &[u8], out: &mut [u8]) -> Answer {
    writes("wrapper_canonical", &[Bytes(wrapper)], out, |out| {
        answer!(raw::wrapper_canonical(wrapper, out))
    })
}

pub fn message_read(message: &[u8]) -> Reading {
    looks("message_read", &[Bytes(message)], || reading(message))
}

fn reading(message: &[u8]) -> Reading {
    let given = raw::message_read(message);
    Reading {
        number: given.number,
        place: given.place,
        tag: given.tag,
        a: given.a,
        b: given.b,
        c: given.c,
        d: given.d,
        data_place: given.data_place,
        data_length: given.data_length,
    }
}

pub fn message_write(tag: u32, [a, b, c, d]: [u64; 4], data: &[u8], out: &mut [u8]) -> Answer {
    writes(
        "message_write",
        &[number(tag), number(a), number(b), number(c), number(d), Bytes(data)],
        out,
        |out| answer!(raw::message_write(tag, a, b, c, d, data, out)),
    )
}

/// The calls on regions.
pub const RINGS: RingCalls = RingCalls {
    check: region_check,
    report: ring_report,
    reserve: ring_reserve,
    fill: ring_fill,
    commit: ring_commit,
    take: ring_take,
};

fn region_check(region: &[u8]) -> Answer {
    looks("region_check", &[Bytes(region)], || answer!(raw::region_check(region)))
}

fn ring_report(region: &[u8], queue: u32) -> Cursors {
    looks("ring_report", &[Bytes(region), number(queue)], || cursors(region, queue))
}

fn cursors(region: &[u8], queue: u32) -> Cursors {
    let given = raw::ring_report(region, queue);
    Cursors {
        number: given.number,
        place: given.place,
        head: given.head,
        reserve: given.reserve,
        commit: given.commit,
    }
}

fn ring_reserve(region: &mut [u8], queue: u32, length: u64) -> Pair {
    changes("ring_reserve", region, &[number(queue), number(length)], |region| {
        let given = raw::ring_reserve(region, queue, length);
        Pair { number: given.number, place: given.place, start: given.start, end: given.end }
    })
}

fn ring_fill(region: &mut [u8], queue: u32, start: u32, end: u32, payload: &[u8]) -> Answer {
    changes(
        "ring_fill",
        region,
        &[number(queue), number(start), number(end), Bytes(payload)],
        |region| answer!(raw::ring_fill(region, queue, start, end, payload)),
    )
}

fn ring_commit(region: &mut [u8], queue: u32, start: u32, end: u32) -> Answer {
    changes("ring_commit", region, &[number(queue), number(start), number(end)], |region| {
        answer!(raw::ring_commit(region, queue, start, end))
    })
}

fn ring_take(region: &mut [u8], queue: u32) -> Record {
    changes("ring_take", region, &[number(queue)], |region| {
        let given = raw::ring_take(region, queue);
        Record {
            number: given.number,
            place: given.place,
            payload_place: given.payload_place,
            payload_length: given.payload_length,
        }
    })
}

// ---- sheets

/// The calls on states.
pub const SHEETS: SheetCalls = SheetCalls { cpu_field, mmu_field, cpu_set, mmu_set, access };

pub fn cpu_field(state: &[u8], field: u32, index: u32, out: &mut [u8]) -> Answer {
    writes("cpu_field", &[Bytes(state), number(field), number(index)], out, |out| {
        answer!(raw::cpu_field(state, field, index, out))
    })
}

pub fn mmu_field(state: &[u8], field: u32, index: u32, out: &mut [u8]) -> Answer {
    writes("mmu_field", &[Bytes(state), number(field), number(index)], out, |out| {
        answer!(raw::mmu_field(state, field, index, out))
    })
}

pub fn cpu_set(state: &mut [u8], field: u32, index: u32, value: &[u8]) -> Answer {
    changes("cpu_set", state, &[number(field), number(index), Bytes(value)], |state| {
        answer!(raw::cpu_set(state, field, index, value))
    })
}

pub fn mmu_set(state: &mut [u8], field: u32, index: u32, value: &[u8]) -> Answer {
    changes("mmu_set", state, &[number(field), number(index), Bytes(value)], |state| {
        answer!(raw::mmu_set(state, field, index, value))
    })
}

pub fn access(word: u32) -> Access {
    looks("access", &[number(word)], || parts(word))
}

fn parts(word: u32) -> Access {
    let given = raw::access(word);
    Access {
        kind: given.kind,
        level: given.level,
        present: given.present,
        long_mode: given.long_mode,
        size: given.size,
        granularity: given.granularity,
        unusable: given.unusable,
        rest: given.rest,
    }
}
