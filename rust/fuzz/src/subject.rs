//! What is compared: the calls on one kind of input, the library's beside the reference's.

use differential::edits::{self, card, numbers, Edit, EditCalls, BOUNDS};
use differential::library;
use differential::random::Random;
use differential::rings::{RingCalls, REFERENCE};
use differential::salvage::{Salvage, LOSS};
use differential::sheets::SheetCalls;
use reference::answer::ROOM;
use reference::{Access, Answer, Meta, Reading};

/// A call on an input with lent memory.
pub type Call = Box<dyn Fn(&[u8], &mut [u8]) -> Answer>;

/// A call of the library and the one of the reference that it has to equal.
pub struct Pair {
    pub name: &'static str,
    pub ours: Call,
    pub theirs: Call,
    lends: Lends,
}

/// How much memory a call is lent.
enum Lends {
    /// About as much as the reference needs.
    Needed,
    /// As much as the input, and so many bytes more.
    Input(usize),
}

/// The calls on one kind of input.
pub struct Subject {
    pub name: &'static str,
    pub pairs: Vec<Pair>,
}

/// Bytes on both sides of lent memory that belong to nobody.
const MARGIN: usize = 16;

macro_rules! pair {
    ($name:literal, $side:ident => $call:expr) => {
        Pair {
            name: $name,
            ours: {
                use library as $side;
                Box::new($call)
            },
            theirs: {
                use reference as $side;
                Box::new($call)
            },
            lends: Lends::Needed,
        }
    };
}

/// Snapshot files.
pub fn files() -> Subject {
    Subject {
        name: "files",
        pairs: vec![
            pair!("check", side => |file, _| side::check(file)),
            pair!("sections", side => side::sections),
            pair!("devices", side => side::devices),
            pair!("disks", side => side::disks),
            pair!("cpus", side => side::cpus),
            pair!("mmus", side => side::mmus),
            Pair {
                name: "meta",
                ours: meta(library::meta),
                theirs: meta(reference::meta),
                lends: Lends::Input(48),
            },
            pair!("canonical", side => side::canonical),
            edit("add_device", Edit::AddDevice((3, 1, 0), b"new")),
            edit("add_disk", Edit::AddDisk(256, b"base", b"")),
            Pair {
                name: "salvage",
                ours: salvage(library::salvage),
                theirs: salvage(reference::salvage),
                lends: Lends::Input(LOSS * LOSSES + 24),
            },
        ],
    }
}

/// The call that reads META, which stores what it says behind as many bytes as the file has: id, parent, time, and the
/// label's place and length, all ones for what is not there.
pub fn meta(meta: fn(&[u8]) -> (Answer, Option<Meta>)) -> Call {
    Box::new(move |file, out| {
        let (answer, said) = meta(file);
        let numbers = said.map_or([u64::MAX; 6], |Meta { id, parent, time, label }| {
            let (place, length) = label.unwrap_or((u64::MAX, u64::MAX));
            [1, id, parent.unwrap_or(u64::MAX), time, place, length]
        });
        for (part, number) in out[file.len()..].chunks_exact_mut(8).zip(numbers) {
            part.copy_from_slice(&number.to_le_bytes());
        }
        answer
    })
}

/// An edit beside the true card.
fn edit(name: &'static str, edit: Edit<'static>) -> Pair {
    let made = |calls: EditCalls| -> Call {
        Box::new(move |file, out| {
            (calls.edit)(file, reference::open(file).card, edit, out).answer()
        })
    };
    Pair { name, ours: made(library::EDITS), theirs: made(edits::REFERENCE), lends: Lends::Needed }
}

/// An edit of a file.
type Choose = fn(&[u8]) -> Edit<'static>;

/// Snapshot files opened, and edited beside cards of every kind, with these calls in the library's place. What is removed or
/// replaced is there, if there is anything.
pub fn cards(calls: EditCalls) -> Subject {
    let edits: [(&str, Choose); 5] = [
        ("add_device", |_| Edit::AddDevice((3, 1, 0), b"new")),
        ("add_disk", |_| Edit::AddDisk(1, b"base", b"")),
        ("remove_device", |file| Edit::RemoveDevice(first_device(file))),
        ("remove_disk", |file| Edit::RemoveDisk(first_disk(file))),
        ("replace_device", |file| Edit::ReplaceDevice(first_device(file), b"")),
    ];
    let opened = |calls: EditCalls| -> Call {
        Box::new(move |file, out| {
            let opened = (calls.open)(file);
            tell(&mut out[file.len()..], numbers(opened.card));
            opened.answer()
        })
    };
    let mut pairs = vec![Pair {
        name: "open",
        ours: opened(calls),
        theirs: opened(edits::REFERENCE),
        lends: Lends::Input(32),
    }];
    pairs.extend(edits.map(|(name, choose)| Pair {
        name,
        ours: beside(calls, choose),
        theirs: beside(edits::REFERENCE, choose),
        lends: Lends::Input(96),
    }));
    Subject { name: "cards", pairs }
}

/// The library's calls with a card.
pub fn library_cards() -> Subject {
    cards(library::EDITS)
}

/// An edit beside a card that the file's last bytes choose, into lent memory with room for 64 bytes more than the file, or one
/// that is too short; the card that comes back stands behind it.
fn beside(calls: EditCalls, choose: Choose) -> Call {
    Box::new(move |file, out| {
        let room = match file.last() {
            Some(last) if last % 8 == 7 => file.len() / 2,
            _ => out.len() - 32,
        };
        let edit = choose(file);
        let edited = (calls.edit)(file, chosen(file, edit), edit, &mut out[..room]);
        let end = out.len() - 32;
        tell(&mut out[end..], numbers(edited.card));
        edited.answer()
    })
}

/// The key of the first device, and the id of the first disk, in the order of the tables.
fn first_device(file: &[u8]) -> (u32, u16, u16) {
    let [a, b, c, d, e, f, g, h] = first_of(reference::devices, file);
    (u32::from_le_bytes([a, b, c, d]), u16::from_le_bytes([e, f]), u16::from_le_bytes([g, h]))
}

fn first_disk(file: &[u8]) -> u32 {
    let [a, b, c, d, ..] = first_of(reference::disks, file);
    u32::from_le_bytes([a, b, c, d])
}

/// The first bytes of a table; zeros where it has no record.
fn first_of(call: fn(&[u8], &mut [u8]) -> Answer, file: &[u8]) -> [u8; 8] {
    // No entry has under 12 bytes.
    let mut table = vec![0; 3 * file.len() + 32];
    call(file, &mut table);
    *table.first_chunk().expect("eight bytes")
}

/// The true card of a file, or one that has a number near 0, a bound or 2^64 before the edit or behind it, by the file's last
/// three bytes.
fn chosen(file: &[u8], edit: Edit) -> reference::Card {
    let truth = reference::open(file).card;
    let [.., which, edge, near] = file else { return truth };
    let at = usize::from(which % 5);
    let mut changed = numbers(truth);
    if let Some(number) = changed.get_mut(at) {
        let made = (edits::REFERENCE.edit)(file, truth, edit, &mut vec![0; file.len() + 64]);
        let (low, high) = BOUNDS[at];
        let moved = numbers(made.card)[at].wrapping_sub(*number);
        let edge = [0, low, high, u64::MAX][usize::from(edge % 4)];
        let before = if near % 2 == 0 { edge } else { edge.wrapping_sub(moved) };
        *number = before.wrapping_add(u64::from(*near) / 16).wrapping_sub(8);
    }
    card(changed)
}

/// Four numbers, one behind the other.
fn tell(out: &mut [u8], numbers: [u64; 4]) {
    for (part, number) in out.chunks_exact_mut(8).zip(numbers) {
        part.copy_from_slice(&number.to_le_bytes());
    }
}

/// The file that tables of new devices are added to: devices 14 and 3 in descending order with two bytes behind them, and RAM.
const TWO_DEVICES: &[u8] = b"AEROSNAP\x01\0\x01\0\0\0\0\0\
    \x06\0\0\0\x01\0\0\0\x03\0\0\0\0\0\0\0RAM\
    \x04\0\0\0\x01\0\0\0\x29\0\0\0\0\0\0\0\
    \x02\0\0\0\
    \x0E\0\0\0\x01\0\0\0\x01\0\0\0\0\0\0\0\x11\
    \x03\0\0\0\x01\0\0\0\x02\0\0\0\0\0\0\0\xAB\xCDto";

/// The bytes that hold the payloads of new devices.
const STORE: &[u8] = b"the payloads of new devices, one behind the other or over each other";

/// The bytes behind the output of a table: the index, and the card.
const TOLD: usize = 40;

/// Tables of new devices, with these calls in the library's place: into memory with room for about three of them, or for less.
pub fn tables(calls: EditCalls) -> Subject {
    let many = |calls: EditCalls| -> Call {
        Box::new(move |table, out| {
            let end = out.len() - TOLD;
            let room = match table.first() {
                Some(first) if first % 4 == 3 => end.min(96 + usize::from(*first)),
                _ => end,
            };
            let card = reference::open(TWO_DEVICES).card;
            let edit = Edit::AddDevices(table, STORE);
            let edited = (calls.edit)(TWO_DEVICES, card, edit, &mut out[..room]);
            let (index, told) = out[end..].split_at_mut(8);
            index.copy_from_slice(&u64::from(edited.index).to_le_bytes());
            tell(told, numbers(edited.card));
            // What is refused at another entry is answered in another way.
            match edited.number {
                0 => edited.answer(),
                number => {
                    Answer { number, place: edited.place.min(400) + 4 * u64::from(edited.index) }
                }
            }
        })
    };
    Subject {
        name: "tables",
        pairs: vec![Pair {
            name: "add_devices",
            ours: many(calls),
            theirs: many(edits::REFERENCE),
            lends: Lends::Input(TOLD + 240),
        }],
    }
}

/// The library's calls on tables.
pub fn library_tables() -> Subject {
    tables(library::EDITS)
}

/// How many records salvage has room for.
const LOSSES: usize = 2;

/// Salvage, with room for a file as long as its input, or, if that has an odd length, for one of half its length. Behind the
/// records stands what it answers; what counts as its answer is why something was lost first and how often, so that files
/// that are damaged in new ways are kept.
pub fn salvage(salvage: Salvage) -> Call {
    Box::new(move |file, lent| {
        let (out, rest) = lent.split_at_mut(file.len());
        let (records, told) = rest.split_at_mut(LOSS * LOSSES);
        let room = if file.len() % 2 == 0 { file.len() } else { file.len() / 2 };
        let answer = salvage(file, &mut out[..room], records);
        let numbers = [answer.number.into(), answer.place, answer.losses];
        for (part, number) in told.chunks_exact_mut(8).zip(numbers) {
            part.copy_from_slice(&number.to_le_bytes());
        }
        match (answer.number, answer.losses) {
            (0, 0) | (1.., _) => Answer { number: answer.number, place: answer.place },
            (0, losses) => Answer { number: 100 + u32::from(records[16]), place: 4 * losses },
        }
    })
}

/// Disk-controller wrappers.
pub fn wrappers() -> Subject {
    Subject {
        name: "wrappers",
        pairs: vec![
            pair!("wrapper_check", side => |wrapper, _| side::wrapper_check(wrapper)),
            pair!("controllers", side => side::controllers),
            pair!("wrapper_canonical", side => side::wrapper_canonical),
        ],
    }
}

/// Messages: read, and written again.
pub fn messages() -> Subject {
    let read = |read: fn(&[u8]) -> Reading| -> Call {
        Box::new(move |message, out| {
            let Reading { number, place, tag, a, b, c, d, data_place, data_length } = read(message);
            let numbers = [tag.into(), a, b, c, d, data_place, data_length];
            for (part, number) in out[message.len()..].chunks_exact_mut(8).zip(numbers) {
                part.copy_from_slice(&number.to_le_bytes());
            }
            Answer { number, place }
        })
    };
    type Write = fn(u32, [u64; 4], &[u8], &mut [u8]) -> Answer;
    let again = |write: Write| -> Call {
        Box::new(move |message, out| {
            let read = reference::message_read(message);
            let data = message.get(read.data_place as usize..).unwrap_or(&[]);
            let data = &data[..data.len().min(read.data_length as usize)];
            write(read.tag, [read.a, read.b, read.c, read.d], data, out)
        })
    };
    Subject {
        name: "messages",
        pairs: vec![
            Pair {
                name: "message_read",
                ours: read(library::message_read),
                theirs: read(reference::message_read),
                lends: Lends::Input(56),
            },
            Pair {
                name: "message_write",
                ours: again(library::message_write),
                theirs: again(|tag, [a, b, c, d], data, out| {
                    reference::message_write(tag, a, b, c, d, data, out)
                }),
                lends: Lends::Needed,
            },
        ],
    }
}

/// CPU and MMU states, with these calls in the library's place: a field read, a field set in a copy of the state, and the
/// state's first bytes as an access word.
pub fn states(calls: SheetCalls) -> Subject {
    type Get = fn(&[u8], u32, u32, &mut [u8]) -> Answer;
    type Set = fn(&mut [u8], u32, u32, &[u8]) -> Answer;
    let get = |get: Get| -> Call {
        Box::new(move |state, out| {
            let Asked { field, index, .. } = asked_of(state);
            get(state, field, index, out)
        })
    };
    let set = |set: Set| -> Call {
        Box::new(move |state, out| {
            let Asked { field, index, width } = asked_of(state);
            out.copy_from_slice(state);
            set(out, field, index, &state[..width.min(state.len())])
        })
    };
    let access = |access: fn(u32) -> Access| -> Call {
        Box::new(move |state, out| {
            let mut word = [0; 4];
            word.iter_mut().zip(state).for_each(|(byte, given)| *byte = *given);
            let parts = access(u32::from_le_bytes(word));
            let numbers = [
                parts.kind,
                parts.level,
                parts.present,
                parts.long_mode,
                parts.size,
                parts.granularity,
                parts.unusable,
                parts.rest,
            ];
            for (part, number) in out[state.len()..].chunks_exact_mut(4).zip(numbers) {
                part.copy_from_slice(&number.to_le_bytes());
            }
            Answer { number: 0, place: 0 }
        })
    };
    let pair = |name, lends, ours, theirs| Pair { name, ours, theirs, lends };
    Subject {
        name: "states",
        pairs: vec![
            pair("cpu_field", Lends::Needed, get(calls.cpu_field), get(reference::cpu_field)),
            pair("mmu_field", Lends::Needed, get(calls.mmu_field), get(reference::mmu_field)),
            pair("cpu_set", Lends::Input(0), set(calls.cpu_set), set(reference::cpu_set)),
            pair("mmu_set", Lends::Input(0), set(calls.mmu_set), set(reference::mmu_set)),
            pair("access", Lends::Input(32), access(calls.access), access(reference::access)),
        ],
    }
}

/// The library's calls on states.
pub fn library_states() -> Subject {
    states(library::SHEETS)
}

/// What is asked of a state: a field, an index, and for a set how many of the state's bytes are its value.
struct Asked {
    field: u32,
    index: u32,
    width: usize,
}

/// By all bytes of the state, so that each change of it asks for something else: half of the indices are 0, and the widths
/// are those that fields have.
fn asked_of(state: &[u8]) -> Asked {
    let sum = state.iter().fold(0, |sum, byte| mixed(sum, u64::from(*byte) + 1));
    let [field, zero, index, width] = [0, 16, 32, 48].map(|at| (sum >> at) as u16);
    Asked {
        field: u32::from(field % 28),
        index: if zero & 1 == 0 { 0 } else { u32::from(index % 18) },
        width: [1, 2, 4, 8, 16, 512][usize::from(width % 6)],
    }
}

/// Regions, with these calls in the library's place.
pub fn regions(calls: RingCalls) -> Subject {
    let mut pairs = vec![Pair {
        name: "region_check",
        ours: Box::new(move |region, _| (calls.check)(region)),
        theirs: Box::new(|region, _| (REFERENCE.check)(region)),
        lends: Lends::Needed,
    }];
    for queue in [0, 1, 2] {
        for (name, make) in RING_CALLS {
            pairs.push(Pair {
                name,
                ours: make(calls, queue),
                theirs: make(REFERENCE, queue),
                lends: Lends::Input(24),
            });
        }
    }
    Subject { name: "regions", pairs }
}

/// The library's calls on regions.
pub fn library_regions() -> Subject {
    regions(library::RINGS)
}

type MakeCall = fn(RingCalls, u32) -> Call;

/// The calls on one queue. Each works on a copy of the region in the lent memory, and its other numbers stand behind that.
const RING_CALLS: [(&str, MakeCall); 5] = [
    ("ring_report", |calls, queue| {
        Box::new(move |region, out| {
            let cursors = (calls.report)(region, queue);
            let numbers = [cursors.head as u64, cursors.reserve as u64, cursors.commit as u64];
            put(region, out, numbers);
            Answer { number: cursors.number, place: cursors.place }
        })
    }),
    ("ring_reserve", |calls, queue| {
        Box::new(move |region, out| {
            let length = wanted(region, queue);
            put(region, out, [0; 3]);
            let pair = (calls.reserve)(&mut out[..region.len()], queue, length);
            let numbers = [pair.start.into(), pair.end.into(), 0];
            behind(region, out, numbers);
            Answer { number: pair.number, place: pair.place }
        })
    }),
    ("ring_fill", |calls, queue| {
        Box::new(move |region, out| {
            let (start, end) = pending(region, queue);
            let payload = vec![0xA5; fitting(region, queue, start, end)];
            put(region, out, [0; 3]);
            (calls.fill)(&mut out[..region.len()], queue, start, end, &payload)
        })
    }),
    ("ring_commit", |calls, queue| {
        Box::new(move |region, out| {
            let (start, end) = pending(region, queue);
            // Sometimes a pair that is not the next one.
            let start = if region.len() & 4 == 0 { start } else { start.wrapping_add(4) };
            put(region, out, [0; 3]);
            (calls.commit)(&mut out[..region.len()], queue, start, end)
        })
    }),
    ("ring_take", |calls, queue| {
        Box::new(move |region, out| {
            put(region, out, [0; 3]);
            let record = (calls.take)(&mut out[..region.len()], queue);
            behind(region, out, [record.payload_place, record.payload_length, 0]);
            Answer { number: record.number, place: record.place }
        })
    }),
];

/// From commit to reserve, as the reference reports them.
fn pending(region: &[u8], queue: u32) -> (u32, u32) {
    let cursors = reference::ring_report(region, queue);
    (cursors.commit as u32, cursors.reserve as u32)
}

/// The capacity that the descriptor of a queue says; 0 where there is none.
fn capacity(region: &[u8], queue: u32) -> u32 {
    let at = 24 + 16 * queue as usize;
    match region.get(at..at + 4) {
        Some(bytes) => u32::from_le_bytes(bytes.try_into().expect("four bytes")),
        None => 0,
    }
}

/// A length to reserve, by the region's last byte: that byte, or about half the ring.
fn wanted(region: &[u8], queue: u32) -> u64 {
    let last = u64::from(region.last().copied().unwrap_or(0));
    match last % 2 {
        0 => u64::from(capacity(region, queue) / 2).saturating_sub(8) + last / 2 % 8,
        _ => last,
    }
}

/// The length of a payload that a pair has room for, behind the skip if it has one; now and then a few bytes less.
fn fitting(region: &[u8], queue: u32, start: u32, end: u32) -> usize {
    let bytes = end.wrapping_sub(start);
    let left = match capacity(region, queue) {
        0 => 0,
        capacity => capacity - start % capacity,
    };
    let record = if bytes > left { bytes - left } else { bytes };
    let less = u32::from(region.last().copied().unwrap_or(0)) & 3;
    record.saturating_sub(4 + less).min(65_536) as usize
}

/// A copy of the region, and numbers behind it.
fn put(region: &[u8], out: &mut [u8], numbers: [u64; 3]) {
    out[..region.len()].copy_from_slice(region);
    behind(region, out, numbers);
}

fn behind(region: &[u8], out: &mut [u8], numbers: [u64; 3]) {
    for (part, number) in out[region.len()..].chunks_exact_mut(8).zip(numbers) {
        part.copy_from_slice(&number.to_le_bytes());
    }
}

/// What was answered to an input, as a number that is another for answers of another kind.
pub type Trace = u64;

impl Subject {
    /// Gives the input to every pair: the trace of the answers, or the first difference.
    pub fn compare(&self, random: &mut Random, input: &[u8]) -> Result<Trace, String> {
        let mut trace = 0;
        for pair in &self.pairs {
            let answer = pair.compare(random, input)?;
            trace = mixed(mixed(trace, answer.number.into()), kind_of_place(answer));
        }
        Ok(trace)
    }
}

/// Places that are near each other count as one, and so do results of nearly one length.
fn kind_of_place(Answer { number, place }: Answer) -> u64 {
    match number {
        0 => u64::from((place + 1).ilog2()),
        _ => (place / 4).min(512),
    }
}

fn mixed(one: u64, other: u64) -> u64 {
    (one ^ other).wrapping_mul(0x9E37_79B9_7F4A_7C15).rotate_left(29)
}

impl Pair {
    fn compare(&self, random: &mut Random, input: &[u8]) -> Result<Answer, String> {
        let length = match self.lends {
            Lends::Input(more) => input.len() + more,
            Lends::Needed => match (self.theirs)(input, &mut []) {
                Answer { number: ROOM, place } => {
                    let needed = place as usize;
                    random.pick(&[needed, needed, needed + 9, needed - 1, 0])
                }
                _ => random.pick(&[0, 32, input.len() + 32]),
            },
        };
        let salt = random.u8();
        let lent = |at: usize| (at as u8).wrapping_mul(31).wrapping_add(salt);
        let before: Vec<u8> = (0..length + 2 * MARGIN).map(lent).collect();
        let (mut ours, mut theirs) = (before.clone(), before);
        let wanted = (self.theirs)(input, &mut theirs[MARGIN..MARGIN + length]);
        let given = (self.ours)(input, &mut ours[MARGIN..MARGIN + length]);
        if given != wanted {
            return Err(format!("{}: {given:?}, and the reference {wanted:?}", self.name));
        }
        match (0..ours.len()).find(|at| ours[*at] != theirs[*at]) {
            None => Ok(wanted),
            Some(at) => {
                let place = at as i64 - MARGIN as i64;
                Err(format!("{}: both {given:?}; lent byte {place} differs", self.name))
            }
        }
    }
}
