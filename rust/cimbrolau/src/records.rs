//! The records of tables, 32 bytes each, and the parts of an input that they name.

use crate::refusal::{room_for, Result};

/// Bytes in a record.
pub(crate) const RECORD: usize = 32;

/// The most bytes that the table of a list can have, whose entries have at least `least` bytes each: as many records as the
/// input has room for entries, and no more than there may be.
pub(crate) fn table_most(input: &[u8], least: usize, entries: usize) -> usize {
    RECORD * entries.min(input.len() / least)
}

/// Where the position stands in each of them.
const POSITION: usize = 24;

/// The records of a table, each read by `read`.
pub(crate) fn all<T>(table: &[u8], read: impl Fn(&[u8]) -> T) -> Result<Vec<T>> {
    let mut records = room_for(table.len() / RECORD)?;
    records.extend(table.chunks_exact(RECORD).map(read));
    Ok(records)
}

/// The `N` bytes at `at` of a record.
pub(crate) fn bytes<const N: usize>(record: &[u8], at: usize) -> [u8; N] {
    let mut taken = [0; N];
    taken.copy_from_slice(&record[at..at + N]);
    taken
}

pub(crate) fn u16_at(record: &[u8], at: usize) -> u16 {
    u16::from_le_bytes(bytes(record, at))
}

pub(crate) fn u32_at(record: &[u8], at: usize) -> u32 {
    u32::from_le_bytes(bytes(record, at))
}

pub(crate) fn u64_at(record: &[u8], at: usize) -> u64 {
    u64::from_le_bytes(bytes(record, at))
}

/// The number of a record's entry in the file's own list, from 0.
pub(crate) fn position(record: &[u8]) -> u32 {
    u32_at(record, POSITION)
}

/// The part of an input that a record names; none where the input is not the one that the record came from and is too short.
pub(crate) fn part(input: &[u8], offset: u64, length: u64) -> Option<&[u8]> {
    let start = usize::try_from(offset).ok()?;
    let end = usize::try_from(offset.checked_add(length)?).ok()?;
    input.get(start..end)
}

#[cfg(test)]
mod tests {
    use super::*;

    #[test]
    fn a_part_stands_inside_or_not_at_all() {
        let input = [1, 2, 3, 4];
        assert_eq!(part(&input, 1, 2), Some(&[2, 3][..]));
        assert_eq!(part(&input, 4, 0), Some(&[][..]));
        assert_eq!(part(&input, 4, 1), None);
        assert_eq!(part(&input, u64::MAX, 2), None);
    }

    #[test]
    fn numbers_are_little_endian() {
        let mut table = [0; 64];
        table[32..].copy_from_slice(&[
            15, 0, 0, 0, 0, 1, 2, 0, 0, 0, 0, 0, 1, 0, 0, 0, 9, 0, 0, 0, 0, 0, 0, 128, 0, 1, 0, 0,
            0, 0, 0, 0,
        ]);
        let numbers =
            |r: &[u8]| (u32_at(r, 0), u16_at(r, 4), u64_at(r, 8), u64_at(r, 16), position(r));
        let expected = vec![(0, 0, 0, 0, 0), (15, 256, 1 << 32, (1 << 63) + 9, 256)];
        assert_eq!(all(&table, numbers), Ok(expected));
    }
}
