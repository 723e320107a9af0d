//! The floor: the least work that a call can do on a file that is right, as a bare loop in unsafe Rust.
//!
//! It takes files of one section, a list of devices in the order of its keys. Of any other file it says that it does not
//! take it, and neither why nor where, which the library may not do. As for the library, nothing is written before the
//! whole file is known to be right: a table takes a second loop, which asks nothing.

use std::ptr::copy_nonoverlapping;

/// The numbers that a file begins with: the letters, then version 1, endianness 1 and zeros.
const LETTERS: u64 = u64::from_le_bytes(*b"AEROSNAP");
const VERSION: u64 = 0x0001_0001;

/// How a section of devices begins: id 4, version 1, flags 0.
const DEVICES: u64 = 0x0001_0000_0004;

/// Where the section starts, where its length and its count stand, and where its first entry does.
const SECTION: usize = 16;
const LENGTH: usize = 24;
const COUNT: usize = 32;
const FIRST: usize = 36;

/// The bytes before an entry's payload, and of a record.
const FIXED: usize = 16;
const RECORD: usize = 32;

/// The most bytes of a file, of its devices together and of one payload, and the most devices.
const MOST_FILE: usize = 1024 << 20;
const MOST_LIST: usize = 256 << 20;
const MOST_PAYLOAD: u64 = 64 << 20;
const MOST_DEVICES: usize = 4096;

/// A device as the loop meets it: its key, its payload's offset and length.
struct Device {
    key: u64,
    offset: usize,
    length: usize,
}

/// Whether a file is right; the bytes written, which are none.
#[inline(never)]
pub fn check(file: &[u8]) -> Option<u64> {
    let count = stated(file)?;
    walk(file, count, |_| ())?;
    Some(0)
}

/// A file that is right is its own canonical form; the bytes written.
#[inline(never)]
pub fn canonical(file: &[u8], out: &mut [u8]) -> Option<u64> {
    let count = stated(file)?;
    walk(file, count, |_| ())?;
    if out.len() < file.len() {
        return None;
    }
    // SAFETY: both have so many bytes, and what is lent to be written overlaps nothing else.
    unsafe { copy_nonoverlapping(file.as_ptr(), out.as_mut_ptr(), file.len()) };
    Some(file.len() as u64)
}

/// A record for each device; the bytes written.
#[inline(never)]
pub fn devices(file: &[u8], table: &mut [u8]) -> Option<u64> {
    let count = stated(file)?;
    walk(file, count, |_| ())?;
    let needed = RECORD * count;
    if table.len() < needed {
        return None;
    }
    let (records, mut at) = (table.as_mut_ptr(), FIRST);
    for position in 0..count {
        // SAFETY: the walk found so many entries in the file, and the table has room for so many records.
        unsafe {
            let (head, length) = (load(file, at), load(file, at + 8));
            let numbers = [head, (at + FIXED) as u64, length, position as u64];
            store(records.add(RECORD * position), numbers.map(u64::to_le));
            at += FIXED + length as usize;
        }
    }
    Some(needed as u64)
}

/// One device more, which is not there yet; the bytes written.
#[inline(never)]
pub fn add_device(
    file: &[u8],
    (id, version, flags): (u32, u16, u16),
    payload: &[u8],
    out: &mut [u8],
) -> Option<u64> {
    let head = u64::from(id) | u64::from(version) << 32 | u64::from(flags) << 48;
    let (count, place) = place_of(file, key(head))?;
    let more = FIXED + payload.len();
    let needed = file.len() + more;
    let section = needed - SECTION - FIXED;
    let bounded = payload.len() as u64 <= MOST_PAYLOAD && section <= MOST_LIST;
    if !bounded || count == MOST_DEVICES || out.len() < needed {
        return None;
    }
    let (from, to) = (file.as_ptr(), out.as_mut_ptr());
    // SAFETY: the place is in the file, at its first entry or behind; the output has room for the file and the new entry,
    // and overlaps neither.
    unsafe {
        copy_nonoverlapping(from, to, place);
        store(to.add(place), [head.to_le(), (payload.len() as u64).to_le()]);
        copy_nonoverlapping(payload.as_ptr(), to.add(place + FIXED), payload.len());
        copy_nonoverlapping(from.add(place), to.add(place + more), file.len() - place);
        store(to.add(LENGTH), (section as u64).to_le());
        store(to.add(COUNT), (count as u32 + 1).to_le());
    }
    Some(needed as u64)
}

/// How many devices there are in a file that is right, and where an entry with a new key goes.
#[inline(always)]
fn place_of(file: &[u8], new: u64) -> Option<(usize, usize)> {
    let count = stated(file)?;
    let mut place = FIRST;
    let end = walk(file, count, |device| {
        if device.key < new {
            place = device.offset + device.length;
        }
    })?;
    // SAFETY: a place before the end of the list is the start of an entry.
    let have = place < end && key(unsafe { load(file, place) }) == new;
    (!have).then_some((count, place))
}

/// The count of a file whose header and section header are right, and whose one section is all the rest.
#[inline(always)]
fn stated(file: &[u8]) -> Option<usize> {
    if file.len() < FIRST || file.len() > MOST_FILE {
        return None;
    }
    let rest = file.len() - SECTION - FIXED;
    // SAFETY: all that is loaded stands before the first entry, and the file has as many bytes.
    let (right, count) = unsafe {
        let header = load(file, 0) == LETTERS && load(file, 8) == VERSION;
        let section = load(file, SECTION) == DEVICES && load(file, LENGTH) == rest as u64;
        (header && section, file.as_ptr().add(COUNT).cast::<u32>().read_unaligned())
    };
    let count = u32::from_le(count) as usize;
    let bounded = rest <= MOST_LIST && (1..=MOST_DEVICES).contains(&count);
    (right && bounded).then_some(count)
}

/// The loop: each entry fits, its length is in bounds, and its key is above the last one. The end of the list.
#[inline(always)]
fn walk(file: &[u8], count: usize, mut each: impl FnMut(Device)) -> Option<usize> {
    let (mut at, mut last) = (FIRST, 0);
    for position in 0..count {
        if file.len() - at < FIXED {
            return None;
        }
        // SAFETY: the fixed part of the entry is in the file.
        let (head, length) = unsafe { (load(file, at), load(file, at + 8)) };
        let offset = at + FIXED;
        if length > MOST_PAYLOAD || length > (file.len() - offset) as u64 {
            return None;
        }
        let (key, length) = (key(head), length as usize);
        if key <= last && position > 0 {
            return None;
        }
        each(Device { key, offset, length });
        (at, last) = (offset + length, key);
    }
    Some(at)
}

/// A key as a number, id above version above flags, of an entry's first eight bytes.
#[inline(always)]
fn key(head: u64) -> u64 {
    head << 32 | u64::from(((head >> 32) as u32).rotate_left(16))
}

/// The u64 at a place of a file.
///
/// # Safety
///
/// Eight bytes of the file have to stand there.
#[inline(always)]
unsafe fn load(file: &[u8], at: usize) -> u64 {
    // SAFETY: the caller says that the bytes are there.
    u64::from_le(unsafe { file.as_ptr().add(at).cast::<u64>().read_unaligned() })
}

/// Stores a value, or several, at any address.
///
/// # Safety
///
/// So many bytes have to be there to be written.
#[inline(always)]
unsafe fn store<T>(to: *mut u8, value: T) {
    // SAFETY: the caller says that the bytes are there.
    unsafe { to.cast::<T>().write_unaligned(value) }
}

#[cfg(test)]
mod tests {
    use super::*;
    use crate::inputs::{self, Order};
    use cimbrolau::raw;

    #[test]
    fn new_entries_go_where_the_library_puts_them() {
        let file = inputs::mixed_devices(9, Order::Ascending);
        let card = raw::open(&file).card;
        for (id, version, flags) in [(0, 9, 9), (1, 0, 9), (1, 1, 1), (5, 2, 0), (9, 1, 1)] {
            let (mut ours, mut theirs) = (vec![0xEE; file.len() + 30], vec![0xEE; file.len() + 30]);
            let answer = raw::add_device(&file, card, id, version, flags, b"new", &mut theirs);
            let place = add_device(&file, (id, version, flags), b"new", &mut ours);
            assert_eq!((answer.number, Some(answer.place)), (0, place));
            assert!(ours == theirs, "({id}, {version}, {flags}) goes elsewhere");
        }
        assert_eq!(add_device(&file, (5, 1, 0), b"", &mut vec![0; file.len() + 30]), None);
    }

    #[test]
    fn no_other_file_is_taken() {
        let file = inputs::devices(3, 8, Order::Ascending);
        assert_eq!(check(&file), Some(0));
        assert_eq!(check(&inputs::devices(3, 8, Order::Descending)), None);
        assert_eq!(check(&file[..file.len() - 1]), None);
        for at in (0..FIRST).chain([FIRST + 8, FIRST + 15, FIRST + 2 * 24 + 8]) {
            let mut wrong = file.clone();
            wrong[at] ^= 0x40;
            assert_eq!(check(&wrong), None, "byte {at} is not looked at");
        }
        for room in [0, file.len() - 1] {
            assert_eq!(canonical(&file, &mut vec![0; room]), None);
        }
        assert_eq!(devices(&file, &mut [0; 3 * RECORD - 1]), None);
    }
}
