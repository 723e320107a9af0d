//! Opening and edits beside a card, given to the library and to the reference.
//!
//! Each edit is made beside the true card of its file, which has to stay true; now and then beside an untrue one too, which changes
//! nothing but the card that comes back, or refuses the edit as CARD. A refusal hands the card back as it went in.

use std::fmt;

use reference::answer::{CARD, ROOM};
use reference::{Answer, Card, Edited};

use crate::compare::{fingerprint, lay_pattern, Answered, Comparison, MARGIN};
use crate::make::DeviceKey;
use crate::random::Random;

/// An edit of a file.
#[derive(Clone, Copy)]
pub enum Edit<'a> {
    AddDevice(DeviceKey, &'a [u8]),
    AddDisk(u32, &'a [u8], &'a [u8]),
    RemoveDevice(DeviceKey),
    RemoveDisk(u32),
    ReplaceDevice(DeviceKey, &'a [u8]),
    /// A table of new devices, and the bytes that hold their payloads.
    AddDevices(&'a [u8], &'a [u8]),
}

impl<'a> Edit<'a> {
    /// What it brings.
    fn brought(self) -> Vec<&'a [u8]> {
        match self {
            Edit::AddDevice(_, payload) | Edit::ReplaceDevice(_, payload) => vec![payload],
            Edit::AddDisk(_, base, overlay) => vec![base, overlay],
            Edit::AddDevices(table, store) => vec![table, store],
            Edit::RemoveDevice(_) | Edit::RemoveDisk(_) => vec![],
        }
    }
}

impl fmt::Display for Edit<'_> {
    fn fmt(&self, f: &mut fmt::Formatter<'_>) -> fmt::Result {
        match self {
            Edit::AddDevice(key, _) => write!(f, "add_device of {key:?}"),
            Edit::AddDisk(id, ..) => write!(f, "add_disk of {id}"),
            Edit::RemoveDevice(key) => write!(f, "remove_device of {key:?}"),
            Edit::RemoveDisk(id) => write!(f, "remove_disk of {id}"),
            Edit::ReplaceDevice(key, _) => write!(f, "replace_device of {key:?}"),
            Edit::AddDevices(table, _) => write!(f, "add_devices of {} bytes", table.len()),
        }
    }
}

/// The calls with a card.
#[derive(Clone, Copy)]
pub struct EditCalls {
    pub open: fn(&[u8]) -> Edited,
    pub edit: fn(&[u8], Card, Edit, &mut [u8]) -> Edited,
}

/// The reference's.
pub const REFERENCE: EditCalls = EditCalls { open: reference::open, edit: reference_edit };

fn reference_edit(file: &[u8], card: Card, edit: Edit, out: &mut [u8]) -> Edited {
    match edit {
        Edit::AddDevice((id, version, flags), payload) => {
            reference::add_device(file, card, id, version, flags, payload, out)
        }
        Edit::AddDisk(id, base, overlay) => reference::add_disk(file, card, id, base, overlay, out),
        Edit::RemoveDevice((id, version, flags)) => {
            reference::remove_device(file, card, id, version, flags, out)
        }
        Edit::RemoveDisk(id) => reference::remove_disk(file, card, id, out),
        Edit::ReplaceDevice((id, version, flags), payload) => {
            reference::replace_device(file, card, id, version, flags, payload, out)
        }
        // The files on the way take as much memory as the output. Where that is long, the pass without them is asked, which the
        // reference's own tests hold to the one with them.
        Edit::AddDevices(table, store) if out.len() > LONG => {
            reference::add_devices_in_one_pass(file, card, table, store, out)
        }
        Edit::AddDevices(table, store) => reference::add_devices(file, card, table, store, out),
    }
}

const LONG: usize = 16 << 20;

impl Answered for Edited {
    fn answer(&self) -> Answer {
        Edited::answer(*self)
    }
}

/// The lengths of the files on the way, of which the first has `first` bytes: one for each entry of a table. What follows an
/// entry whose payload is longer than any is never written.
pub fn lengths_on_the_way(first: u64, table: &[u8]) -> Vec<u64> {
    let records = table.chunks_exact(24).skip(1);
    let payloads = records.map(|r| u64::from_le_bytes(r[16..24].try_into().expect("eight bytes")));
    let mut lengths = vec![first];
    for payload in payloads.take_while(|payload| *payload <= 64 << 20) {
        lengths.push(lengths[lengths.len() - 1] + 16 + payload);
    }
    lengths
}

/// A card as its four numbers, and back.
pub fn numbers(card: Card) -> [u64; 4] {
    [card.length, card.sections, card.devices, card.payloads]
}

pub fn card([length, sections, devices, payloads]: [u64; 4]) -> Card {
    Card { length, sections, devices, payloads }
}

/// The bounds of each number.
pub const BOUNDS: [(u64, u64); 4] = [(16, 1024 << 20), (0, 64), (0, 4096), (0, 256 << 20)];

/// A card with a number, or more of them, near 0, near a bound or near 2^64, before an edit that moves cards as from `before` to
/// `after`, or behind it.
fn untrue(random: &mut Random, before: Card, after: Card) -> Card {
    let (from, to) = (numbers(before), numbers(after));
    let mut changed = from;
    let one = random.below(4);
    for at in 0..4 {
        if at == one || random.once_in(8) {
            let (low, high) = BOUNDS[at];
            let edge = random.pick(&[0, low, high, 1 << 32, 1 << 63, u64::MAX]);
            let moved = if random.once_in(4) { 0 } else { to[at].wrapping_sub(from[at]) };
            let near = (random.below(5) as u64).wrapping_sub(2);
            changed[at] = edge.wrapping_sub(moved).wrapping_add(near);
        }
    }
    card(changed)
}

/// An edit whose output is longer is made beside the true card alone.
const SHORT: usize = 1 << 20;

impl Comparison {
    /// Opens a file; its card, whose numbers are 0 where the file is refused.
    pub fn open(&mut self, file: &[u8]) -> Card {
        let ours = (self.edits.open)(file);
        let theirs = self.same("open", &[file], ours, (REFERENCE.open)(file));
        self.answers.add(theirs.number);
        if theirs.number != 0 && theirs.card != Card::default() {
            self.fail("open", &[file], &format!("a card beside a refusal: {theirs:?}"));
        }
        theirs.card
    }

    /// An edit of a file; the answer, and what the output then holds.
    pub fn edit(&mut self, file: &[u8], edit: Edit) -> (Answer, &[u8]) {
        let edited = self.edited(file, edit);
        (edited.answer(), self.lent())
    }

    /// The same, with the index and the card.
    fn edited(&mut self, file: &[u8], edit: Edit) -> Edited {
        self.inputs += 1;
        let mut inputs = vec![file];
        inputs.extend(edit.brought());
        let before: Vec<u64> = inputs.iter().map(|input| fingerprint(input)).collect();
        let card = reference::open(file).card;
        let edited = self.edit_beside(file, card, edit);
        for (before, input) in before.into_iter().zip(inputs) {
            self.unchanged(before, input);
        }
        edited
    }

    /// An edit beside the true card of a file, and now and then beside an untrue one.
    pub(crate) fn edit_beside(&mut self, file: &[u8], card: Card, edit: Edit) -> Edited {
        let mut inputs = vec![file];
        inputs.extend(edit.brought());
        let call = edit.to_string();
        let ours = self.edits.edit;
        let probe = (REFERENCE.edit)(file, card, edit, &mut []).answer();
        let length = match edit {
            Edit::AddDevices(table, _) => self.lent_on_the_way(probe, table, file.len()),
            _ => self.lent_length(probe, inputs.iter().map(|input| input.len()).sum()),
        };
        let edited = self.output_in(
            length,
            &call,
            &inputs,
            |out| ours(file, card, edit, out),
            |out| (REFERENCE.edit)(file, card, edit, out),
        );
        let length = self.lent().len();
        if length <= SHORT {
            let kept = match edited.number {
                0 => reference::open(&self.lent()[..edited.place as usize]).card,
                _ => card,
            };
            if edited.number == CARD || edited.card != kept {
                self.fail(&call, &inputs, &format!("beside the true card: {edited:?}"));
            }
            if self.cards.once_in(4) {
                let untrue = untrue(&mut self.cards, card, edited.card);
                self.edit_beside_untrue(file, untrue, edit, edited);
            }
        }
        edited
    }

    /// The edit that was just made, beside another card: what it answers, and what it writes, is the same, or it is CARD.
    pub fn edit_beside_untrue(
        &mut self,
        file: &[u8],
        card: Card,
        edit: Edit,
        made: Edited,
    ) -> Edited {
        let length = self.lent().len();
        let (mut ours, mut theirs) = (vec![], vec![]);
        lay_pattern(&mut ours, length, 0);
        lay_pattern(&mut theirs, length, 0);
        let room = MARGIN..MARGIN + length;
        let given = (self.edits.edit)(file, card, edit, &mut ours[room.clone()]);
        let wanted = (REFERENCE.edit)(file, card, edit, &mut theirs[room]);
        let mut inputs = vec![file];
        inputs.extend(edit.brought());
        let call = format!("{edit} beside {card:?}");
        let edited = self.same(&call, &inputs, given, wanted);
        self.answers.add(edited.number);
        if ours != theirs {
            self.fail(&call, &inputs, &format!("{edited:?}, and lent bytes differ"));
        }
        let as_before = match edited.number {
            CARD => made.number == 0 && edited.card == card,
            0 => {
                let written = MARGIN + edited.place as usize;
                made.answer() == edited.answer()
                    && ours[MARGIN..written] == self.ours[MARGIN..written]
            }
            _ => Edited { card, ..made } == edited,
        };
        let many = matches!(edit, Edit::AddDevices(..));
        let of_entry = many && ![0, CARD].contains(&edited.number);
        if !as_before || edited.index != 0 && !of_entry {
            let what = format!("beside the true card {made:?}, beside this {edited:?}");
            self.fail(&call, &inputs, &what);
        }
        edited
    }

    /// How much is lent to an add of many devices, of which `probe` was answered to none: mostly about what one of the files on
    /// the way takes, and most often the last of them.
    fn lent_on_the_way(&mut self, probe: Answer, table: &[u8], input: usize) -> usize {
        if probe.number != ROOM {
            return self.lent_length(probe, input);
        }
        let lengths = lengths_on_the_way(probe.place, table);
        let last = *lengths.last().expect("the first file on the way");
        let needed =
            if self.exact || self.random.once_in(2) { last } else { self.random.pick(&lengths) };
        self.lent_length(Answer { place: needed, ..probe }, input)
    }

    /// Adds the devices of a table to a file; the answer, and what the output then holds.
    pub fn add_devices(&mut self, file: &[u8], table: &[u8], store: &[u8]) -> (Edited, &[u8]) {
        let edited = self.edited(file, Edit::AddDevices(table, store));
        (edited, self.lent())
    }

    /// The same beside the true card, in memory of so many bytes.
    pub fn add_devices_in(
        &mut self,
        room: usize,
        file: &[u8],
        table: &[u8],
        store: &[u8],
    ) -> (Edited, &[u8]) {
        self.inputs += 1;
        let inputs = [file, table, store];
        let short = inputs.iter().all(|input| input.len() <= SHORT);
        let before = inputs.map(|input| if short { fingerprint(input) } else { 0 });
        let card = reference::open(file).card;
        let (ours, edit) = (self.edits.edit, Edit::AddDevices(table, store));
        let edited = self.output_in(
            room,
            &edit.to_string(),
            &inputs,
            |out| ours(file, card, edit, out),
            |out| (REFERENCE.edit)(file, card, edit, out),
        );
        if short {
            before
                .into_iter()
                .zip(inputs)
                .for_each(|(before, input)| self.unchanged(before, input));
        }
        (edited, self.lent())
    }

    /// Adds a device to a file; the answer, and what the output then holds.
    pub fn add_device(&mut self, file: &[u8], key: DeviceKey, payload: &[u8]) -> (Answer, &[u8]) {
        self.edit(file, Edit::AddDevice(key, payload))
    }

    /// Adds a disk to a file.
    pub fn add_disk(
        &mut self,
        file: &[u8],
        id: u32,
        base: &[u8],
        overlay: &[u8],
    ) -> (Answer, &[u8]) {
        self.edit(file, Edit::AddDisk(id, base, overlay))
    }

    /// Removes a device from a file.
    pub fn remove_device(&mut self, file: &[u8], key: DeviceKey) -> (Answer, &[u8]) {
        self.edit(file, Edit::RemoveDevice(key))
    }

    /// Removes a disk from a file.
    pub fn remove_disk(&mut self, file: &[u8], id: u32) -> (Answer, &[u8]) {
        self.edit(file, Edit::RemoveDisk(id))
    }

    /// Replaces a device's payload.
    pub fn replace_device(
        &mut self,
        file: &[u8],
        key: DeviceKey,
        payload: &[u8],
    ) -> (Answer, &[u8]) {
        self.edit(file, Edit::ReplaceDevice(key, payload))
    }
}
