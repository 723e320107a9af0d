//! Many devices at once: added one by one, as the rules say it; and in one pass, as a plain implementation would do it.

use crate::answer::{ask, Answer, Taken, HAVE, LIMIT, MANY, PAYLOAD, ROOM, SIZE};
use crate::card::{edited, Card, Edited};
use crate::cursor::{u16_at, u32_at, u64_at, Output};
use crate::list::{device_key, Entry, Kind, List, MOST_PAYLOAD};
use crate::snapshot::{
    add_device, canonical, canonical_order, card_of, length_of, open, put_canonical, put_section,
    read_file, Canonical, Section, DEVICES, HEADER, MOST_DEVICES_PAYLOAD, MOST_FILE, MOST_SECTIONS,
    SECTION_HEADER,
};

/// The bytes of a record of the table: u32 id, u16 version, u16 flags, u64 place, u64 length.
const RECORD: usize = 24;

/// Writes the canonical form of the file's content and the devices of a table: the answer of adding one after the other, each
/// into a buffer of the output's length. The card is asked of the whole in the end.
pub fn add_devices(file: &[u8], card: Card, table: &[u8], store: &[u8], out: &mut [u8]) -> Edited {
    let opened = open(file);
    if opened.number != 0 {
        return Edited { card, ..opened };
    }
    let (written, truth) = match one_by_one(file, opened.card, table, store, out.len()) {
        Ok(made) => made,
        Err((index, Answer { number, place })) => return Edited { number, index, place, card },
    };
    match card.moved(opened.card, truth) {
        Err(Answer { number, place }) => Edited { number, index: 0, place, card },
        Ok(card) => {
            out[..written.len()].copy_from_slice(&written);
            Edited { number: 0, index: 0, place: written.len() as u64, card }
        }
    }
}

/// The last file and its card, which is always the true one; or the first entry that is refused, and why.
fn one_by_one(
    file: &[u8],
    mut truth: Card,
    table: &[u8],
    store: &[u8],
    room: usize,
) -> Result<(Vec<u8>, Card), (u32, Answer)> {
    let mut last = file.to_vec();
    let mut next = vec![0; room];
    for (record, index) in table.chunks_exact(RECORD).zip(0..) {
        let payload = part(record, store).map_err(|refusal| (index, refusal))?;
        let (id, version, flags) = key(record);
        let added = add_device(&last, truth, id, version, flags, payload, &mut next);
        if added.number != 0 {
            return Err((index, added.answer()));
        }
        last.clear();
        last.extend(&next[..added.place as usize]);
        truth = added.card;
    }
    if table.len() < RECORD {
        let form = canonical(file, &mut next);
        if form.number != 0 {
            return Err((0, form));
        }
        next.truncate(form.place as usize);
        last = next;
    }
    Ok((last, truth))
}

/// The key of a record.
fn key(record: &[u8]) -> (u32, u16, u16) {
    (u32_at(record, 0), u16_at(record, 4), u16_at(record, 6))
}

/// The part of the store that a record names; one with no byte may stand at the very end.
fn part<'a>(record: &[u8], store: &'a [u8]) -> Taken<&'a [u8]> {
    let (place, length) = (u128::from(u64_at(record, 8)), u128::from(u64_at(record, 16)));
    ask(place + length <= store.len() as u128, PAYLOAD, 0)?;
    Ok(&store[place as usize..(place + length) as usize])
}

// In one pass.

/// The same answer in one pass over the table, with one sort of its keys and one writing: the peer of the benchmarks. No other
/// file is made on the way.
pub fn add_devices_in_one_pass(
    file: &[u8],
    card: Card,
    table: &[u8],
    store: &[u8],
    out: &mut [u8],
) -> Edited {
    let mut index = 0;
    let made = read_file(file).and_then(|sections| {
        let truth = card_of(&canonical_order(&sections));
        if table.len() < RECORD {
            let form = Canonical::of(&sections);
            let mut output = Output::with_room(out, form.length)?;
            let card = card.moved(truth, truth)?;
            put_canonical(&form, &mut output);
            return Ok((form.length, card));
        }
        let plan = Plan::of(&sections, table, store);
        let after = plan.pass(truth, out.len(), &mut index)?;
        index = 0;
        let card = card.moved(truth, after)?;
        plan.put(&mut Output::with_room(out, after.length as usize)?, after);
        Ok((after.length as usize, card))
    });
    Edited { index, ..edited(card, made) }
}

/// What is to be written: the other sections in canonical order, the devices of the file with what follows them, and the entries
/// of the table.
struct Plan<'s, 'a> {
    others: Vec<&'s Section<'a>>,
    list: &'s [Entry<'a>],
    tail: &'s [u8],
    /// The bytes of the payload that the devices of the file have, or an empty list.
    payload: u64,
    table: &'s [u8],
    store: &'s [u8],
    /// The keys of the entries with their numbers, in key order.
    sorted: Vec<(u64, u32)>,
}

static NONE: List = List::new();

impl<'s, 'a> Plan<'s, 'a> {
    fn of(sections: &'s [Section<'a>], table: &'s [u8], store: &'s [u8]) -> Self {
        let (home, others): (Vec<_>, Vec<_>) =
            canonical_order(sections).into_iter().partition(|section| section.id == DEVICES);
        let home = home.first();
        let list = home.and_then(|home| home.list.as_ref()).unwrap_or(&NONE);
        // No file has more, so that none behind these is ever looked at.
        let most = Kind::Devices.most() as usize + 1;
        let mut sorted: Vec<(u64, u32)> = table
            .chunks_exact(RECORD)
            .take(most)
            .map(key)
            .map(|(id, version, flags)| device_key(id, version, flags))
            .zip(0..)
            .collect();
        sorted.sort_unstable();
        Plan {
            others,
            list,
            tail: home.map_or(&[][..], |home| home.tail(list)),
            payload: home.map_or(4, |home| home.bytes.len() - SECTION_HEADER) as u64,
            table,
            store,
            sorted,
        }
    }

    /// The record with a number.
    fn record(&self, index: usize) -> &'s [u8] {
        &self.table[RECORD * index..][..RECORD]
    }

    /// The first entry whose key is in the file, or came before in the table.
    fn first_known(&self) -> Option<u32> {
        let again = self.sorted.windows(2).filter(|pair| pair[0].0 == pair[1].0);
        let again = again.map(|pair| pair[1].1).min();
        let mut old = self.list.iter().map(|entry| entry.key).peekable();
        let is_old = |(key, _): &&(u64, u32)| {
            while old.next_if(|old| old < key).is_some() {}
            old.peek() == Some(key)
        };
        let known = self.sorted.iter().filter(is_old).map(|(_, index)| *index).min();
        again.into_iter().chain(known).min()
    }

    /// Asks all that is asked of each entry, with running numbers; the card of the last file. `index` is the entry that is asked.
    fn pass(&self, mut card: Card, room: usize, index: &mut u32) -> Taken<Card> {
        let known = self.first_known();
        let mut payload = self.payload;
        card.sections = self.others.len() as u64 + 1;
        card.length = length_of(&self.others) as u64 + SECTION_HEADER as u64 + payload;
        for at in 0..self.table.len() / RECORD {
            *index = at as u32;
            let length = part(self.record(at), self.store)?.len() as u64;
            ask(length <= MOST_PAYLOAD, LIMIT, 0)?;
            ask(known != Some(*index), HAVE, 0)?;
            payload += 16 + length;
            card.length += 16 + length;
            card.devices += 1;
            card.payloads += length;
            ask(card.devices <= u64::from(Kind::Devices.most()), LIMIT, 0)?;
            ask(payload <= MOST_DEVICES_PAYLOAD, LIMIT, 0)?;
            ask(card.sections <= MOST_SECTIONS as u64, MANY, 0)?;
            ask(card.length <= MOST_FILE as u64, SIZE, 0)?;
            ask(card.length <= room as u64, ROOM, card.length as usize)?;
        }
        Ok(card)
    }

    /// Writes the file: the section of devices in its place among the others.
    fn put(&self, output: &mut Output, card: Card) {
        output.put(HEADER);
        let at = self.others.partition_point(|other| other.rank() < DEVICES);
        let (front, back) = self.others.split_at(at);
        front.iter().for_each(|section| put_section(section, output));
        output.put(&DEVICES.to_le_bytes());
        output.put(&[1, 0, 0, 0]);
        let entries = 16 * card.devices + card.payloads;
        output.put(&(4 + entries + self.tail.len() as u64).to_le_bytes());
        output.put(&(card.devices as u32).to_le_bytes());
        self.put_entries(output);
        output.put(self.tail);
        back.iter().for_each(|section| put_section(section, output));
    }

    /// Writes the devices of the file and those of the table, in key order.
    fn put_entries(&self, output: &mut Output) {
        let mut old = self.list.iter().peekable();
        for (key, index) in &self.sorted {
            while let Some(entry) = old.next_if(|entry| entry.key < *key) {
                output.put(entry.bytes);
            }
            let record = self.record(*index as usize);
            output.put(&record[..8]);
            output.put(&record[16..]);
            let start = u64_at(record, 8) as usize;
            output.put(&self.store[start..start + u64_at(record, 16) as usize]);
        }
        old.for_each(|entry| output.put(entry.bytes));
    }
}
