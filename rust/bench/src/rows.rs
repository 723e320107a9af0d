//! What is measured: the rows of the table.

use crate::contest::{contest, contestant, Contestant, Outcome};
use crate::floor;
use crate::inputs::{self, Order};
use cimbrolau::region::{layout, Plan};
use cimbrolau::{raw, Level, Message};
use std::hint::black_box;

/// A line of the table.
pub struct Row {
    pub call: &'static str,
    pub input: String,
    /// What the library is measured beside.
    pub peer: &'static str,
    /// Nanoseconds for a call of the library, and of the peer.
    pub library: f64,
    pub other: f64,
    pub ratio: f64,
    pub target: f64,
    /// The most nanoseconds that the library may take, where there is such a bound.
    pub most: Option<f64>,
    /// The library's time over that of one `memcpy` of the file, for calls that write files.
    pub of_memcpy: Option<f64>,
    /// The library's time over that of the floor, where that is measured.
    pub floor: Option<f64>,
    /// The most that this may be; infinite where it may be anything.
    pub floor_target: f64,
}

impl Row {
    pub fn met(&self) -> bool {
        self.ratio <= self.target && self.most.is_none_or(|most| self.library <= most)
    }

    /// Whether the library is as near to the floor as it has to be, where there is such a target.
    pub fn near(&self) -> Option<bool> {
        self.floor.filter(|_| self.floor_target.is_finite()).map(|floor| floor <= self.floor_target)
    }
}

/// Takes the rows as they are measured.
pub type Tell<'a> = &'a mut dyn FnMut(Row);

/// What a file is called, and how much more than the reference the library may take on it.
struct Case<'a> {
    file: &'a [u8],
    input: String,
    reading: f64,
    writing: f64,
    /// How much more than the floor, where that is measured; infinite where it may be anything.
    floor: Option<f64>,
}

const MIB: usize = 1 << 20;

/// What some rows measure, and how they are measured.
type Group = (&'static str, fn(Tell));

/// All rows.
pub const GROUPS: [Group; 10] = [
    ("sizes", sizes),
    ("counts", counts),
    ("mixed", mixed),
    ("texts", texts),
    ("messages", messages),
    ("rings", rings),
    ("ready", ready),
    ("states", states),
    ("salvage", salvage),
    ("many", many),
];

/// The reference beside itself, on a short call and on a long one: how far a ratio can be trusted in this run.
pub fn controls() -> (f64, f64) {
    let (short, long) = (inputs::ram(1024), inputs::ram(MIB));
    let check = || contestant(|_| reference::check(black_box(&short)));
    let canonical = || contestant(|out| reference::canonical(black_box(&long), out));
    let ratio = |outcome: Outcome| outcome.ratios[1];
    let checks = ratio(contest(&[check(), check()], &mut []));
    let canonicals = ratio(contest(&[canonical(), canonical()], &mut vec![0xEE; MIB]));
    (checks, canonicals)
}

/// Files from the smallest to a large one.
fn sizes(tell: Tell) {
    let small = [
        (16, "16 B, no section"),
        (1024, "1 KiB, RAM"),
        (32 << 10, "32 KiB, RAM"),
        (MIB, "1 MiB, RAM"),
    ];
    for (size, name) in small {
        let file = inputs::ram(size);
        file_rows(
            Case { file: &file, input: name.to_string(), reading: 1.25, writing: 1.2, floor: None },
            tell,
        );
    }
    for size in [16, 256] {
        let file = inputs::ram(size * MIB);
        let input = format!("{size} MiB, RAM");
        file_rows(Case { file: &file, input, reading: 1.25, writing: 1.25, floor: None }, tell);
    }
    let file = inputs::devices(4, 63 * MIB, Order::Descending);
    let input = "252 MiB, 4 devices descending".to_string();
    file_rows(Case { file: &file, input, reading: 2.0, writing: 1.25, floor: None }, tell);
}

/// Lists from one entry to as many as there may be, in each order.
fn counts(tell: Tell) {
    for order in Order::ALL {
        let reading = if order == Order::Descending { 2.0 } else { 1.25 };
        for count in [1, 16, 256, 1024, 4095] {
            let file = inputs::devices(count, 64, order);
            let devices = if count == 1 { "device" } else { "devices" };
            let input = format!("{count} {devices} {}", order.name());
            let floor = floor_target(count, order);
            let straight = count >= 1024 && order == Order::Ascending;
            let writing = if straight { 1.0 } else { 1.2 };
            file_rows(Case { file: &file, input: input.clone(), reading, writing, floor }, tell);
            edit_rows(Case { file: &file, input, reading, writing: 1.2, floor: None }, tell);
        }
        let file = inputs::disks(255, order);
        let input = format!("255 disks {}", order.name());
        disk_rows(Case { file: &file, input, reading, writing: 1.2, floor: None }, tell);
    }
}

/// The most that the library may take beside the floor, which takes lists in ascending order. In short ones the loop is so
/// short that what stands around it counts for more, and there it may take anything.
fn floor_target(count: u32, order: Order) -> Option<f64> {
    let target = if count >= 1024 { 1.5 } else { f64::INFINITY };
    (order == Order::Ascending).then_some(target)
}

/// The table of devices whose payloads are of many lengths, so that none stands where entries of one length would.
fn mixed(tell: Tell) {
    for order in Order::ALL {
        for count in [4, 16, 64, 256, 1024, 4095] {
            let file = inputs::mixed_devices(count, order);
            let input = format!("{count} devices of mixed lengths {}", order.name());
            let reading = if order == Order::Descending { 2.0 } else { 1.25 };
            let case = Case { file: &file, input, reading, writing: 1.2, floor: None };
            tell(reading_row("devices", &case, raw::devices, reference::devices));
        }
    }
}

/// Check, tables, canonical form, and one device more.
fn file_rows(case: Case, tell: Tell) {
    tell(reading_row("check", &case, |file, _| raw::check(file), |file, _| reference::check(file)));
    tell(reading_row("sections", &case, raw::sections, reference::sections));
    tell(reading_row("devices", &case, raw::devices, reference::devices));
    tell(writing_row("canonical", &case, raw::canonical, reference::canonical));
    tell(reading_row(
        "open",
        &case,
        |file, _| told(raw::open(file)),
        |file, _| reference::open(file).answer(),
    ));
    let (card, other) = cards(case.file);
    // The key is new by its flags, and comes second.
    tell(writing_row(
        "add_device",
        &case,
        |file, out| told(raw::add_device(file, card, 1, 1, 1, &[0x11; 64], out)),
        |file, out| reference::add_device(file, other, 1, 1, 1, &[0x11; 64], out).answer(),
    ));
}

/// The card of a file, as each side has it.
fn cards(file: &[u8]) -> (raw::Card, reference::Card) {
    (raw::open(file).card, reference::open(file).card)
}

/// Number and place of an answer with a card.
fn told(edited: raw::Edited) -> raw::Answer {
    let raw::Edited { number, place, .. } = black_box(edited);
    raw::Answer { number, place }
}

/// One device fewer and one payload exchanged: the first key's, which every such file has.
fn edit_rows(case: Case, tell: Tell) {
    let (card, other) = cards(case.file);
    tell(writing_row(
        "remove_device",
        &case,
        |file, out| told(raw::remove_device(file, card, 1, 1, 0, out)),
        |file, out| reference::remove_device(file, other, 1, 1, 0, out).answer(),
    ));
    tell(writing_row(
        "replace_device",
        &case,
        |file, out| told(raw::replace_device(file, card, 1, 1, 0, &[0x22; 80], out)),
        |file, out| reference::replace_device(file, other, 1, 1, 0, &[0x22; 80], out).answer(),
    ));
}

/// Check, table, canonical form, and one disk more.
fn disk_rows(case: Case, tell: Tell) {
    tell(reading_row("check", &case, |file, _| raw::check(file), |file, _| reference::check(file)));
    tell(reading_row("disks", &case, raw::disks, reference::disks));
    tell(writing_row("canonical", &case, raw::canonical, reference::canonical));
    let (card, other) = cards(case.file);
    tell(writing_row(
        "add_disk",
        &case,
        |file, out| told(raw::add_disk(file, card, 0, b"images/added.img", b"", out)),
        |file, out| reference::add_disk(file, other, 0, b"images/added.img", b"", out).answer(),
    ));
}

/// The tables of CPUs and MMUs, META, and fields of one state of each kind.
fn states(tell: Tell) {
    for order in Order::ALL {
        let file = inputs::cpus(256, order);
        let input = format!("256 CPUs {}", order.name());
        let case = Case { file: &file, input, reading: 1.25, writing: 1.2, floor: None };
        tell(reading_row("cpus", &case, raw::cpus, reference::cpus));
        tell(reading_row("mmus", &case, raw::mmus, reference::mmus));
    }
    let file = inputs::ram(1024);
    let case = Case {
        file: &file,
        input: "1 KiB, RAM".to_string(),
        reading: 1.25,
        writing: 1.2,
        floor: None,
    };
    tell(reading_row(
        "meta",
        &case,
        |file, out| {
            let meta = raw::meta(file);
            out[..8].copy_from_slice(&meta.id.to_le_bytes());
            raw::Answer { number: meta.number, place: meta.place }
        },
        |file, out| {
            let (answer, meta) = reference::meta(file);
            out[..8].copy_from_slice(&meta.map_or(0, |meta| meta.id).to_le_bytes());
            answer
        },
    ));
    // A state is copied before it is set, by both.
    let state = inputs::cpu_state();
    let input = format!("a state of {} bytes", state.len());
    let case = Case { file: &state, input, reading: 1.0, writing: 1.2, floor: None };
    tell(reading_row(
        "cpu_field",
        &case,
        |state, out| raw::cpu_field(state, 20, 15, out),
        |state, out| reference::cpu_field(state, 20, 15, out),
    ));
    tell(reading_row(
        "cpu_set",
        &case,
        |state, out| raw::cpu_set(copied(state, out), 1, 0, &[0x11; 8]),
        |state, out| reference::cpu_set(copied(state, out), 1, 0, &[0x11; 8]),
    ));
    let state = vec![0x44; 264];
    let input = format!("a state of {} bytes", state.len());
    let case = Case { file: &state, input, reading: 1.0, writing: 1.2, floor: None };
    tell(reading_row(
        "mmu_field",
        &case,
        |state, out| raw::mmu_field(state, 2, 12, out),
        |state, out| reference::mmu_field(state, 2, 12, out),
    ));
    tell(reading_row(
        "mmu_set",
        &case,
        |state, out| raw::mmu_set(copied(state, out), 0, 2, &[0x11; 8]),
        |state, out| reference::mmu_set(copied(state, out), 0, 2, &[0x11; 8]),
    ));
    access_row(tell);
}

/// A copy of a state in the buffer.
fn copied<'a>(state: &[u8], out: &'a mut [u8]) -> &'a mut [u8] {
    let copy = &mut out[..state.len()];
    copy.copy_from_slice(state);
    copy
}

/// The parts of an access word.
fn access_row(tell: Tell) {
    let contestants = [
        contestant(|_| raw::access(black_box(0x0001_A09B))),
        contestant(|_| reference::access(black_box(0x0001_A09B))),
    ];
    let outcome = contest(&contestants, &mut []);
    tell(row("access", "a word", "reference", 1.25, &outcome));
}

fn reading_row(
    call: &'static str,
    case: &Case,
    library: impl Fn(&[u8], &mut [u8]) -> raw::Answer,
    peer: impl Fn(&[u8], &mut [u8]) -> reference::Answer,
) -> Row {
    let mut table = vec![0xEE; 32 * 4096];
    agree(call, case, &mut table, &library, &peer);
    let mut contestants = vec![
        contestant(|table| library(black_box(case.file), table)),
        contestant(|table| peer(black_box(case.file), table)),
    ];
    contestants.extend(floor_beside(call, case, table.len(), &library));
    let outcome = contest(&contestants, &mut table);
    let row = row(call, &case.input, "reference", case.reading, &outcome);
    above_floor(Row { of_memcpy: None, ..row }, case, outcome.ratios.get(2))
}

fn writing_row(
    call: &'static str,
    case: &Case,
    library: impl Fn(&[u8], &mut [u8]) -> raw::Answer,
    peer: impl Fn(&[u8], &mut [u8]) -> reference::Answer,
) -> Row {
    // Every page of the output has been written before it is measured.
    let mut out = vec![0xEE; case.file.len() + 256];
    agree(call, case, &mut out, &library, &peer);
    let mut contestants = vec![
        contestant(|out| library(black_box(case.file), out)),
        contestant(|out| peer(black_box(case.file), out)),
        contestant(|out| out[..case.file.len()].copy_from_slice(black_box(case.file))),
    ];
    contestants.extend(floor_beside(call, case, out.len(), &library));
    let outcome = contest(&contestants, &mut out);
    let row = row(call, &case.input, "reference", case.writing, &outcome);
    above_floor(row, case, outcome.ratios.get(3))
}

/// A row with the library's time over that of the floor, where that was measured.
fn above_floor(row: Row, case: &Case, ratio: Option<&f64>) -> Row {
    Row { floor: ratio.copied(), floor_target: case.floor.unwrap_or(f64::INFINITY), ..row }
}

/// The floor as a contestant, where it takes the file and has such a call. It has to agree with the library, in a buffer
/// of so many bytes that nothing was written to before.
fn floor_beside<'a>(
    call: &str,
    case: &'a Case,
    room: usize,
    library: impl Fn(&[u8], &mut [u8]) -> raw::Answer,
) -> Option<Contestant<'a>> {
    case.floor?;
    match call {
        "check" => Some(floored(call, case, room, library, |file, _| floor::check(file))),
        "canonical" => Some(floored(call, case, room, library, floor::canonical)),
        "devices" => Some(floored(call, case, room, library, floor::devices)),
        "add_device" => Some(floored(call, case, room, library, |file, out| {
            floor::add_device(file, (1, 1, 1), &[0x11; 64], out)
        })),
        _ => None,
    }
}

/// One call of the floor as a contestant, after it has agreed with the library.
fn floored<'a>(
    call: &str,
    case: &'a Case,
    room: usize,
    library: impl Fn(&[u8], &mut [u8]) -> raw::Answer,
    floor: impl Fn(&[u8], &mut [u8]) -> Option<u64> + 'a,
) -> Contestant<'a> {
    let said = format!("{call} and its floor");
    agree(&said, case, &mut vec![0xEE; room], library, |file, out| {
        let place = floor(file, out);
        reference::Answer { number: place.map_or(u32::MAX, |_| 0), place: place.unwrap_or(0) }
    });
    contestant(move |out| floor(black_box(case.file), out))
}

/// The two have to take the file, with one answer and the same bytes in the buffer afterwards.
fn agree(
    call: &str,
    case: &Case,
    out: &mut [u8],
    library: impl Fn(&[u8], &mut [u8]) -> raw::Answer,
    peer: impl Fn(&[u8], &mut [u8]) -> reference::Answer,
) {
    let mut other = out.to_vec();
    let answer = library(case.file, out);
    let expected = peer(case.file, &mut other);
    let said = format!("{call}, {}", case.input);
    assert_eq!(answer.number, 0, "{said}: refused");
    assert_eq!(
        (answer.number, answer.place),
        (expected.number, expected.place),
        "{said}: they differ"
    );
    assert!(*out == other[..], "{said}: their outputs differ");
}

/// Texts judged as Panic messages, beside `from_utf8` on the text alone. They are long, so that reading the rest of the
/// message counts for little.
fn texts(tell: Tell) {
    for size in [1024, 8192, 65_530] {
        for (kind, sample, target) in [("ASCII", inputs::ASCII, 1.3), ("mixed", inputs::MIXED, 2.0)]
        {
            let text = inputs::text(sample, size);
            let message = inputs::panic(&text);
            assert_eq!(raw::message_read(&message).number, 0, "{kind} text: refused");
            let contestants = [
                contestant(|_| raw::message_read(black_box(&message))),
                contestant(|_| std::str::from_utf8(black_box(text.as_bytes())).is_ok()),
            ];
            let outcome = contest(&contestants, &mut []);
            let input = format!("{kind} text, {} B", text.len());
            tell(row("message_read", &input, "from_utf8", target, &outcome));
        }
    }
}

/// Messages read and written: a small one, one with an error code, one with data, one with text.
fn messages(tell: Tell) {
    let data = [0x33; 4096];
    for message in [
        Message::PortReadResp { id: 7, value: 15 },
        Message::DiskReadResp { id: 9, bytes: 0, error: Some(2) },
        Message::MmioWrite { id: 7, addr: 4096, data: &data },
        Message::Log {
            level: Level::Warn,
            text: "tank 15: level 3840 is above the rim, valve 7 closed",
        },
    ] {
        let bytes = message.write().expect("a message that fits");
        let input = format!("{}, {} B", message.name(), bytes.len());
        tell(read_row(&bytes, &input));
        tell(write_row(&bytes, &input));
    }
}

const MESSAGES: f64 = 1.5;

fn read_row(bytes: &[u8], input: &str) -> Row {
    let (read, other) = (raw::message_read(bytes), reference::message_read(bytes));
    assert_eq!((read.number, read.tag, read.a), (0, other.tag, other.a), "{input}: they differ");
    let contestants = [
        contestant(|_| raw::message_read(black_box(bytes))),
        contestant(|_| reference::message_read(black_box(bytes))),
    ];
    row("message_read", input, "reference", MESSAGES, &contest(&contestants, &mut []))
}

fn write_row(bytes: &[u8], input: &str) -> Row {
    let raw::Numbers { tag, a, b, c, d, data_place, data_length, .. } = raw::message_read(bytes);
    let data = &bytes[data_place as usize..][..data_length as usize];
    let contestants = [
        contestant(|out| raw::message_write(black_box(tag), a, b, c, d, black_box(data), out)),
        contestant(|out| {
            reference::message_write(black_box(tag), a, b, c, d, black_box(data), out)
        }),
    ];
    let mut out = vec![0xEE; 65_536];
    row("message_write", input, "reference", MESSAGES, &contest(&contestants, &mut out))
}

/// The most that the library may take beside the reference's ring.
const RINGS: f64 = 1.0;

/// Messages passed over a ring, a payload filled in, and regions checked.
fn rings(tell: Tell) {
    for size in [16, 64, 256, 1024, 4096] {
        tell(passing_row(size));
    }
    tell(fill_row(4096));
    for queues in [1, 8, 64] {
        tell(region_row(queues));
    }
}

/// A region of a command and an event queue, with room for four of the largest records measured.
fn two_queues() -> Vec<u8> {
    let plans = [0, 1].map(|kind| Plan { kind, capacity: 32 << 10 });
    layout(&plans).expect("a region that is taken")
}

/// One message from its reservation to the taker: four calls.
fn passing_row(size: usize) -> Row {
    let payload = vec![0x5A; size];
    let mut region = two_queues();
    let mut other = region.clone();
    // Some rounds first: the two agree on every answer and every byte, past the ring's end too.
    for _ in 0..(64 << 10) / size {
        assert_eq!(pass(&mut region, &payload), pass_in_reference(&mut other, &payload));
        assert!(region == other, "{size} bytes passed: the regions differ");
    }
    let contestants = [
        contestant(|region| pass(region, black_box(&payload))),
        contestant(|region| pass_in_reference(region, black_box(&payload))),
    ];
    let outcome = contest(&contestants, &mut region);
    let input = format!("{size} B, 2 queues");
    row("reserve, fill, commit, take", &input, "reference", RINGS, &outcome)
}

/// Where the payload was taken.
fn pass(region: &mut [u8], payload: &[u8]) -> (u64, u64) {
    let pair = raw::ring_reserve(region, 0, payload.len() as u64);
    let filled = raw::ring_fill(region, 0, pair.start, pair.end, payload);
    let committed = raw::ring_commit(region, 0, pair.start, pair.end);
    let taken = raw::ring_take(region, 0);
    assert_eq!((pair.number, filled.number, committed.number, taken.number), (0, 0, 0, 0));
    (taken.payload_place, taken.payload_length)
}

/// The same, word for word.
fn pass_in_reference(region: &mut [u8], payload: &[u8]) -> (u64, u64) {
    let pair = reference::ring_reserve(region, 0, payload.len() as u64);
    let filled = reference::ring_fill(region, 0, pair.start, pair.end, payload);
    let committed = reference::ring_commit(region, 0, pair.start, pair.end);
    let taken = reference::ring_take(region, 0);
    assert_eq!((pair.number, filled.number, committed.number, taken.number), (0, 0, 0, 0));
    (taken.payload_place, taken.payload_length)
}

/// One pair filled again and again, beside `memcpy`.
fn fill_row(size: usize) -> Row {
    let payload = vec![0x5A; size];
    let mut region = two_queues();
    let pair = raw::ring_reserve(&mut region, 0, size as u64);
    let fill = |region: &mut [u8], payload: &[u8]| {
        raw::ring_fill(region, 0, pair.start, pair.end, payload).number
    };
    assert_eq!(fill(&mut region, &payload), 0, "fill of {size} bytes: refused");
    // Behind header, descriptors, ring header and length: where the payload stands.
    let start = 16 + 2 * 16 + 16 + 4;
    let contestants = [
        contestant(|region| fill(region, black_box(&payload))),
        contestant(|region| region[start..start + size].copy_from_slice(black_box(&payload))),
    ];
    let outcome = contest(&contestants, &mut region);
    row("fill", &format!("{size} B, 2 queues"), "memcpy", FILL, &outcome)
}

/// The most that a fill may take beside `memcpy`: it checks the region too.
const FILL: f64 = 2.0;

/// A region checked; the one with all its queues within a microsecond.
fn region_row(queues: u32) -> Row {
    let plans: Vec<Plan> = (0..queues).map(|kind| Plan { kind, capacity: 4096 }).collect();
    let region = layout(&plans).expect("a region that is taken");
    assert_eq!(reference::region_check(&region).number, 0, "{queues} queues: they differ");
    let contestants = [
        contestant(|_| raw::region_check(black_box(&region))),
        contestant(|_| reference::region_check(black_box(&region))),
    ];
    let input = format!("{queues} {}", if queues == 1 { "queue" } else { "queues" });
    let outcome = contest(&contestants, &mut []);
    let most = (queues == 64).then_some(1000.0);
    Row { most, ..row("region_check", &input, "reference", RINGS, &outcome) }
}

/// The most that readiness may take beside the reference's.
const READY: f64 = 1.0;

/// Readiness: of a file with no section, of a panel that has all that is needed and of one that has nothing of it, and of panels with more devices.
fn ready(tell: Tell) {
    tell(ready_row(&inputs::ram(16), "16 B, no section", 72));
    tell(ready_row(&inputs::devices(1, 64, Order::Ascending), "1 device, not needed", 72));
    tell(ready_row(&inputs::panel(0, Order::Random), "a panel, 1 MiB, ready", 0));
    for count in [16, 256, 4088] {
        for order in Order::ALL {
            let input = format!("a panel, {count} devices more {}", order.name());
            tell(ready_row(&inputs::panel(count, order), &input, 0));
        }
    }
}

/// One answer, with a list of so many bytes.
fn ready_row(file: &[u8], input: &str, listed: u64) -> Row {
    let (mut ours, mut theirs) = ([0xEE; 80], [0xEE; 80]);
    let answer = raw::ready(file, &mut ours);
    let expected = reference::ready(file, &mut theirs);
    assert_eq!((answer.number, answer.place), (0, listed), "{input}: another answer");
    assert_eq!(
        (answer.yes, answer.place, ours),
        (expected.yes, expected.place, theirs),
        "{input}: they differ"
    );
    let contestants = [
        contestant(|list| raw::ready(black_box(file), list)),
        contestant(|list| reference::ready(black_box(file), list)),
    ];
    row("ready", input, "reference", READY, &contest(&contestants, &mut ours))
}

/// The most that salvage may take beside the reference's. It walks a damaged file twice, since both rooms are asked before the
/// first byte is written and losses have no bound; the reference keeps what it found in memory of its own.
const SALVAGE: f64 = 2.0;

/// Salvage of files that are accepted, of one that has lost its end and its list, and of one that is nothing but losses.
fn salvage(tell: Tell) {
    tell(salvage_row(&inputs::ram(16), "16 B, no section", 0));
    tell(salvage_row(&inputs::ram(1024), "1 KiB, RAM", 0));
    tell(salvage_row(&inputs::ram(MIB), "1 MiB, RAM", 0));
    for order in Order::ALL {
        let file = inputs::devices(1024, 64, order);
        tell(salvage_row(&file, &format!("1024 devices {}", order.name()), 0));
    }
    tell(salvage_row(&inputs::damaged_panel(), "a panel, 1 MiB, damaged and cut", 2));
    let broken = inputs::broken(65_535);
    tell(salvage_row(&broken, "65535 broken sections of 16 B", 65_535));
}

/// What is kept and what is lost, with so many losses.
fn salvage_row(file: &[u8], input: &str, losses: usize) -> Row {
    let records = 24 * losses;
    let mut ours = vec![0xEE; file.len() + records];
    let mut theirs = ours.clone();
    // The records stand before the file, in one buffer.
    let library = |lent: &mut [u8]| {
        let (records, out) = lent.split_at_mut(records);
        let answer = raw::salvage(black_box(file), out, records);
        (answer.number, answer.place, answer.losses)
    };
    let peer = |lent: &mut [u8]| {
        let (records, out) = lent.split_at_mut(records);
        let answer = reference::salvage(black_box(file), out, records);
        (answer.number, answer.place, answer.losses)
    };
    let (answer, expected) = (library(&mut ours), peer(&mut theirs));
    assert_eq!((answer.0, answer.2), (0, losses as u64), "{input}: another answer");
    assert!(answer == expected && ours == theirs, "{input}: they differ");
    let contestants = [
        contestant(library),
        contestant(peer),
        contestant(|lent| lent[..file.len()].copy_from_slice(black_box(file))),
    ];
    row("salvage", input, "reference", SALVAGE, &contest(&contestants, &mut ours))
}

/// The most that thousands of devices at once may take beside a plain implementation that sorts and writes once, that fewer of them
/// may, as adds do, and that twenty of them in a file of 1 MiB may take beside one add.
const THOUSANDS: f64 = 1.0;
const FEWER: f64 = 1.2;
const TWENTY: f64 = 1.1;

/// Twenty devices into a file of 1 MiB, beside one of them and beside the plain implementation; and tables of one, hundreds and
/// thousands of devices into an empty file, in ascending and in random order.
fn many(tell: Tell) {
    let file = inputs::ram(MIB);
    let (table, store) = inputs::table(20, 64, Order::Random);
    tell(twenty_row(&file, &table, &store));
    let case = |file, input: &str, writing| Case {
        file,
        input: input.to_string(),
        reading: 1.25,
        writing,
        floor: None,
    };
    tell(many_row(case(&file, TWENTY_DEVICES, FEWER), &table, &store));
    let empty = inputs::ram(16);
    let (table, store) = inputs::table(1, 64, Order::Ascending);
    tell(many_row(case(&empty, "16 B, no section, and 1 device", FEWER), &table, &store));
    for (count, target) in [(256, FEWER), (4000, THOUSANDS)] {
        for order in [Order::Ascending, Order::Random] {
            let (table, store) = inputs::table(count, 64, order);
            let input = format!("16 B, no section, and {count} devices {}", order.name());
            tell(many_row(case(&empty, &input, target), &table, &store));
        }
    }
}

const TWENTY_DEVICES: &str = "1 MiB, RAM, and 20 devices random";

/// All devices of a table, beside the first of them.
fn twenty_row(file: &[u8], table: &[u8], store: &[u8]) -> Row {
    let (card, _) = cards(file);
    let mut out = vec![0xEE; file.len() + table.len() + store.len() + 20];
    let id = u32::from_le_bytes([table[0], table[1], table[2], table[3]]);
    let all = |out: &mut [u8]| raw::add_devices(black_box(file), card, table, store, out);
    let one = |out: &mut [u8]| raw::add_device(black_box(file), card, id, 1, 0, &store[..64], out);
    assert_eq!((all(&mut out).number, one(&mut out).number), (0, 0), "twenty devices: refused");
    let contestants = [
        contestant(all),
        contestant(one),
        contestant(|out| out[..file.len()].copy_from_slice(black_box(file))),
    ];
    row("add_devices", TWENTY_DEVICES, "one add", TWENTY, &contest(&contestants, &mut out))
}

/// All devices of a table, beside the reference's pass with one sort and one writing.
fn many_row(case: Case, table: &[u8], store: &[u8]) -> Row {
    let file = case.file;
    let (card, other) = cards(file);
    let library = |file: &[u8], out: &mut [u8]| {
        told(raw::add_devices(file, card, black_box(table), store, out))
    };
    let peer = |file: &[u8], out: &mut [u8]| {
        reference::add_devices_in_one_pass(file, other, black_box(table), store, out).answer()
    };
    let mut out = vec![0xEE; file.len() + table.len() + store.len() + 20];
    agree("add_devices", &case, &mut out, library, peer);
    let contestants = [
        contestant(|out| library(black_box(file), out)),
        contestant(|out| peer(black_box(file), out)),
        contestant(|out| {
            out[..file.len()].copy_from_slice(black_box(file));
            out[file.len()..][..store.len()].copy_from_slice(black_box(store));
        }),
    ];
    row(
        "add_devices",
        &case.input,
        "sort and write",
        case.writing,
        &contest(&contestants, &mut out),
    )
}

fn row(call: &'static str, input: &str, peer: &'static str, target: f64, outcome: &Outcome) -> Row {
    Row {
        call,
        input: input.to_string(),
        peer,
        library: outcome.nanoseconds[0],
        other: outcome.nanoseconds[1],
        ratio: outcome.ratios[1],
        target,
        most: None,
        of_memcpy: outcome.ratios.get(2).copied(),
        floor: None,
        floor_target: f64::INFINITY,
    }
}
