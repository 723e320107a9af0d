//! Errors in adding many devices at once.

use reference::answer::{CARD, HAVE, LIMIT, PAYLOAD, ROOM};
use reference::{add_devices, Card, Edited};

use crate::edits::{self, Edit, EditCalls};

/// Those in which a table alone makes the difference, by name. Three more are of broken files, long payloads and untrue cards.
pub const ALL: &[(&str, EditCalls)] = &[
    ("an_index_from_1", AN_INDEX_FROM_1),
    ("a_refusal_without_its_index", A_REFUSAL_WITHOUT_ITS_INDEX),
    ("an_index_beside_a_taken_table", AN_INDEX_BESIDE_A_TAKEN_TABLE),
    ("an_empty_part_at_the_end_that_is_outside", AN_EMPTY_PART_AT_THE_END_THAT_IS_OUTSIDE),
    ("an_empty_part_beyond_the_end_that_is_inside", AN_EMPTY_PART_BEYOND_THE_END_THAT_IS_INSIDE),
    ("an_end_that_wraps", AN_END_THAT_WRAPS),
    ("a_part_record_that_is_an_entry", A_PART_RECORD_THAT_IS_AN_ENTRY),
    ("a_key_again_in_the_table_that_is_dropped", A_KEY_AGAIN_IN_THE_TABLE_THAT_IS_DROPPED),
    ("the_room_of_the_last_file_alone", THE_ROOM_OF_THE_LAST_FILE_ALONE),
    ("a_refused_table_that_writes", A_REFUSED_TABLE_THAT_WRITES),
    ("no_entry_and_no_canonical_form", NO_ENTRY_AND_NO_CANONICAL_FORM),
];

/// The reference's edits, and for a table these.
macro_rules! planted {
    ($(#[$about:meta])* $name:ident, |$file:ident, $card:ident, $table:ident, $store:ident, $out:ident| $call:expr) => {
        $(#[$about])*
        pub const $name: EditCalls = EditCalls {
            edit: |$file: &[u8], $card: Card, edit: Edit, $out: &mut [u8]| match edit {
                Edit::AddDevices($table, $store) => $call,
                _ => (edits::REFERENCE.edit)($file, $card, edit, $out),
            },
            ..edits::REFERENCE
        };
    };
}

/// The place and the length of a record.
fn part(record: &[u8]) -> (u64, u64) {
    let number = |at: usize| u64::from_le_bytes(record[at..at + 8].try_into().expect("eight"));
    (number(8), number(16))
}

/// The table up to the first entry of which this holds, and the number of that entry.
fn until(table: &[u8], holds: impl Fn(u64, u64) -> bool) -> Option<(&[u8], u32)> {
    let parts = table.chunks_exact(24).map(part);
    let at = parts.clone().position(|(place, length)| holds(place, length))?;
    Some((&table[..24 * at], at as u32))
}

/// A table of which every part is changed.
fn with_parts(table: &[u8], part_of: impl Fn(u64, u64) -> (u64, u64)) -> Vec<u8> {
    let mut changed = table.to_vec();
    for record in changed.chunks_exact_mut(24) {
        let (place, length) = part(record);
        let (place, length) = part_of(place, length);
        record[8..16].copy_from_slice(&place.to_le_bytes());
        record[16..].copy_from_slice(&length.to_le_bytes());
    }
    changed
}

planted!(
    /// The index counts from 1.
    AN_INDEX_FROM_1,
    |file, card, table, store, out| {
        let edited = add_devices(file, card, table, store, out);
        let entry = [PAYLOAD, HAVE, ROOM, LIMIT].contains(&edited.number) && table.len() >= 24;
        Edited { index: edited.index + u32::from(entry), ..edited }
    }
);

planted!(
    /// No index is told.
    A_REFUSAL_WITHOUT_ITS_INDEX,
    |file, card, table, store, out| Edited { index: 0, ..add_devices(file, card, table, store, out) }
);

planted!(
    /// A table that is taken has the number of its entries as index.
    AN_INDEX_BESIDE_A_TAKEN_TABLE,
    |file, card, table, store, out| {
        let edited = add_devices(file, card, table, store, out);
        match edited.number {
            0 => Edited { index: (table.len() / 24) as u32, ..edited },
            _ => edited,
        }
    }
);

planted!(
    /// An empty part at the very end lies outside.
    AN_EMPTY_PART_AT_THE_END_THAT_IS_OUTSIDE,
    |file, card, table, store, out| {
        let end = store.len() as u64;
        let moved = with_parts(table, |place, length| match (place, length) {
            (place, 0) if place == end => (place, 1),
            part => part,
        });
        add_devices(file, card, &moved, store, out)
    }
);

planted!(
    /// An empty part may lie anywhere.
    AN_EMPTY_PART_BEYOND_THE_END_THAT_IS_INSIDE,
    |file, card, table, store, out| {
        let moved = with_parts(table, |place, length| match length {
            0 => (0, 0),
            _ => (place, length),
        });
        add_devices(file, card, &moved, store, out)
    }
);

planted!(
    /// Place and length are added in 64 bits.
    AN_END_THAT_WRAPS,
    |file, card, table, store, out| {
        let moved = with_parts(table, |place, length| match place.overflowing_add(length) {
            (end, true) if end <= store.len() as u64 => (0, end),
            _ => (place, length),
        });
        add_devices(file, card, &moved, store, out)
    }
);

planted!(
    /// What is missing of the last record is 0.
    A_PART_RECORD_THAT_IS_AN_ENTRY,
    |file, card, table, store, out| {
        let mut whole = table.to_vec();
        whole.resize(table.len().next_multiple_of(24), 0);
        add_devices(file, card, &whole, store, out)
    }
);

planted!(
    /// Of two entries with one key the first is taken.
    A_KEY_AGAIN_IN_THE_TABLE_THAT_IS_DROPPED,
    |file, card, table, store, out| {
        let records: Vec<&[u8]> = table.chunks_exact(24).collect();
        let is_first = |(at, record): &(usize, &&[u8])| {
            records[..*at].iter().all(|earlier| earlier[..8] != record[..8])
        };
        let kept: Vec<&[u8]> =
            records.iter().enumerate().filter(is_first).map(|(_, record)| *record).collect();
        add_devices(file, card, &kept.concat(), store, out)
    }
);

planted!(
    /// Only the last file is asked for its room.
    THE_ROOM_OF_THE_LAST_FILE_ALONE,
    |file, card, table, store, out| {
        let edited = add_devices(file, card, table, store, out);
        if edited.number != ROOM {
            return edited;
        }
        let mut enough = vec![0; file.len() + 20 + table.len() + store.len() * (table.len() / 24)];
        let truth = reference::open(file).card;
        match add_devices(file, truth, table, store, &mut enough) {
            made if made.number == 0 => Edited { place: made.place, ..edited },
            refused => Edited { card, ..refused },
        }
    }
);

planted!(
    /// The files on the way stand in the output.
    A_REFUSED_TABLE_THAT_WRITES,
    |file, card, table, store, out| {
        let edited = add_devices(file, card, table, store, out);
        if edited.number != 0 && edited.index > 0 {
            let truth = reference::open(file).card;
            let _ = add_devices(file, truth, &table[..24 * edited.index as usize], store, out);
        }
        edited
    }
);

planted!(
    /// Where there is no entry, the file is copied as it is.
    NO_ENTRY_AND_NO_CANONICAL_FORM,
    |file, card, table, store, out| {
        let edited = add_devices(file, card, table, store, out);
        if edited.number == 0 && table.len() < 24 && edited.place == file.len() as u64 {
            out[..file.len()].copy_from_slice(file);
        }
        edited
    }
);

planted!(
    /// The bound of a payload is asked before where it lies.
    A_LIMIT_BEFORE_THE_PART,
    |file, card, table, store, out| {
        let edited = add_devices(file, card, table, store, out);
        match until(table, |_, length| length > 64 << 20) {
            Some((_, at)) if edited.number == PAYLOAD && edited.index == at => {
                Edited { number: LIMIT, ..edited }
            }
            _ => edited,
        }
    }
);

planted!(
    /// Where the payloads lie is asked before the file.
    A_PART_BEFORE_THE_FILE,
    |file, card, table, store, out| {
        let end = store.len() as u128;
        let outside = until(table, |place, length| u128::from(place) + u128::from(length) > end);
        match outside {
            Some((_, index)) if reference::check(file).number != 0 => {
                Edited { number: PAYLOAD, index, place: 0, card }
            }
            _ => add_devices(file, card, table, store, out),
        }
    }
);

planted!(
    /// The card is refused with the number of the last entry.
    A_CARD_WITH_AN_INDEX,
    |file, card, table, store, out| {
        let edited = add_devices(file, card, table, store, out);
        match edited.number {
            CARD => Edited { index: (table.len() / 24) as u32, ..edited },
            _ => edited,
        }
    }
);
