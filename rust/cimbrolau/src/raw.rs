//! The calls as the proved library has them: over lent slices, answering a number and a place.
//!
//! Each function takes every input, ends, and writes nothing unless its number is 0. This is the only module with
//! `unsafe` in it, and all of it is the step into C: the functions here are safe for every argument.
//!
//! Use it where a buffer is at hand and nothing should be allocated; [`crate::snapshot`], [`crate::wrapper`],
//! [`crate::Message`] and [`crate::region`] stand on it and are easier to use.

use std::borrow::Cow;
use std::mem::{offset_of, size_of, size_of_val};

/// What a call answers: number 0 and the bytes written, or the number of a refusal and its place.
#[repr(C)]
#[must_use]
#[derive(Clone, Copy, Debug, PartialEq, Eq)]
pub struct Answer {
    /// 0 where the input is taken, else the number of the refusal.
    pub number: u32,
    /// The bytes written (0 if none are), or the refusal's place.
    pub place: u64,
}

/// What is shown of a canonical file: four numbers, which an edit moves by what it changes. [`open`] makes them of a file.
#[repr(C)]
#[derive(Clone, Copy, Debug, PartialEq, Eq, Hash)]
pub struct Card {
    /// How many bytes the canonical form has, 16 to 1024 MiB.
    pub length: u64,
    /// How many sections, up to 64.
    pub sections: u64,
    /// How many devices, up to 4096.
    pub devices: u64,
    /// How many bytes the payloads of the devices have together, up to 256 MiB.
    pub payloads: u64,
}

impl Card {
    /// The card of [`EMPTY`](crate::snapshot::EMPTY).
    ///
    /// ```
    /// use cimbrolau::{snapshot, Card};
    /// assert_eq!(snapshot::open(&snapshot::EMPTY), Ok(Card::EMPTY));
    /// ```
    pub const EMPTY: Card = Card { length: 16, sections: 0, devices: 0, payloads: 0 };
}

/// What opening and editing answer.
#[repr(C)]
#[must_use]
#[derive(Clone, Copy, Debug, PartialEq, Eq)]
pub struct Edited {
    /// 0 where the file is taken and edited, else the number of the refusal.
    pub number: u32,
    /// Which of many entries is refused, from 0; 0 in the calls of one entry, and where no entry is to blame.
    pub index: u32,
    /// The bytes written, or the refusal's place.
    pub place: u64,
    /// The card of the result. Beside a refusal it is the card that went in; where none went in, its numbers are 0.
    pub card: Card,
}

/// A device that is to be added among many: its key, and where its payload stands in the bytes that hold them. These are the
/// 24 bytes of a record of the table of [`add_devices`].
#[repr(C)]
#[derive(Clone, Copy, Debug, PartialEq, Eq, Hash)]
pub struct NewDevice {
    /// The device's id.
    pub id: u32,
    /// The version of its payload.
    pub version: u16,
    /// The device's flags.
    pub flags: u16,
    /// Where its payload starts in the store.
    pub place: u64,
    /// How many bytes its payload has.
    pub length: u64,
}

/// What reading a message answers: its kind by its tag, its numbers in the order of its fields, and where its data stands.
#[repr(C)]
#[must_use]
#[derive(Clone, Copy, Debug, PartialEq, Eq)]
pub struct Numbers {
    /// 0 where the message is taken, else the number of the refusal; all below is then 0 but `place`.
    pub number: u32,
    /// The refusal's place.
    pub place: u64,
    /// The tag of the kind.
    pub tag: u32,
    /// The first number.
    pub a: u64,
    /// The second number.
    pub b: u64,
    /// The third number.
    pub c: u64,
    /// The fourth number; of a disk's response the error number, 0 where `ok` is 1.
    pub d: u64,
    /// Where the data starts in the message; 0 for a kind that has none.
    pub data_place: u64,
    /// How many bytes of data there are.
    pub data_length: u64,
}

/// The parts of a segment's access word; the word is their sum, each at its place.
#[repr(C)]
#[derive(Clone, Copy, Debug, PartialEq, Eq)]
pub struct Access {
    /// Bits 0 to 3: the type.
    pub kind: u32,
    /// Bits 5 and 6: the privilege level.
    pub level: u32,
    /// Bit 7.
    pub present: u32,
    /// Bit 13: a 64-bit code segment.
    pub long_mode: u32,
    /// Bit 14: the default size.
    pub size: u32,
    /// Bit 15.
    pub granularity: u32,
    /// Bit 16.
    pub unusable: u32,
    /// All other bits, where they stand in the word.
    pub rest: u32,
}

/// What META says of a snapshot.
#[repr(C)]
#[must_use]
#[derive(Clone, Copy, Debug, PartialEq, Eq)]
pub struct Meta {
    /// 0 where the file is taken, else the number of the refusal; all below is then 0 but `place`.
    pub number: u32,
    /// 1 where there is a META section; else all below is 0.
    pub present: u32,
    /// The refusal's place.
    pub place: u64,
    /// The snapshot's id.
    pub id: u64,
    /// 1 where it has a parent.
    pub has_parent: u32,
    /// 1 where it has a label.
    pub has_label: u32,
    /// The parent's id.
    pub parent: u64,
    /// The time in milliseconds.
    pub time: u64,
    /// Where the label starts in the file.
    pub label_place: u64,
    /// How many bytes the label has.
    pub label_length: u64,
}

/// What a report of a ring answers: its cursors, signed, as hosts show them.
#[repr(C)]
#[must_use]
#[derive(Clone, Copy, Debug, PartialEq, Eq)]
pub struct Cursors {
    /// 0 where the region is taken, else the number of the refusal; all below is then 0 but `place`.
    pub number: u32,
    /// The refusal's place.
    pub place: u64,
    /// The taker's cursor.
    pub head: i32,
    /// Up to where bytes are reserved.
    pub reserve: i32,
    /// Up to where bytes are committed.
    pub commit: i32,
}

/// What reserving answers: from which cursor to which the bytes are reserved, a skip included.
#[repr(C)]
#[must_use]
#[derive(Clone, Copy, Debug, PartialEq, Eq)]
pub struct Pair {
    /// 0 where the bytes are reserved, else the number of the refusal; all below is then 0 but `place`.
    pub number: u32,
    /// The bytes stored, or the refusal's place.
    pub place: u64,
    /// The reserve cursor before.
    pub start: u32,
    /// The reserve cursor after.
    pub end: u32,
}

/// What readiness answers: a yes or a no, and how many bytes the list of what is missing has.
#[repr(C)]
#[must_use]
#[derive(Clone, Copy, Debug, PartialEq, Eq)]
pub struct Readiness {
    /// 0 where the file is taken and the list has room, else the number of the refusal.
    pub number: u32,
    /// 1 for a yes; 0 for a no, and beside a refusal.
    pub yes: u32,
    /// The bytes written to the list, 8 for each thing that is missing, or the refusal's place.
    pub place: u64,
}

/// What salvage answers: how many bytes are kept, and how many losses there are.
#[repr(C)]
#[must_use]
#[derive(Clone, Copy, Debug, PartialEq, Eq)]
pub struct Salvaged {
    /// 0 where the header is taken and both outputs have room, else the number of the refusal.
    pub number: u32,
    /// The bytes of the file written, or the refusal's place.
    pub place: u64,
    /// The records written, 24 bytes each; 0 beside a refusal.
    pub losses: u64,
}

/// What taking answers: where the payload stands in the region.
#[repr(C)]
#[must_use]
#[derive(Clone, Copy, Debug, PartialEq, Eq)]
pub struct Record {
    /// 0 where a record is taken, else the number of the refusal; all below is then 0 but `place`.
    pub number: u32,
    /// The bytes stored, or the refusal's place.
    pub place: u64,
    /// Where the payload starts in the region.
    pub payload_place: u64,
    /// How many bytes the payload has.
    pub payload_length: u64,
}

// What the library answers with, by value: its sizes, on x86-64 and on Arm alike.
const _: () = assert!(size_of::<Answer>() == 16 && size_of::<Numbers>() == 72);
const _: () = assert!(size_of::<Cursors>() == 32 && size_of::<Pair>() == 24);
const _: () = assert!(size_of::<Record>() == 32 && size_of::<Readiness>() == 16);
const _: () = assert!(size_of::<Salvaged>() == 24);
const _: () = assert!(size_of::<Card>() == 32 && size_of::<Edited>() == 48);

// The fields of a new device fill its 24 bytes: 4, 2, 2, 8 and 8, each where the record has it, and none between them.
const _: () = assert!(size_of::<NewDevice>() == 4 + 2 + 2 + 8 + 8);
const _: () = assert!(offset_of!(NewDevice, version) == 4 && offset_of!(NewDevice, flags) == 6);
const _: () = assert!(offset_of!(NewDevice, place) == 8 && offset_of!(NewDevice, length) == 16);

/// The library's own functions. A slice is lent as a pointer and a length, for the time of the call.
mod c {
    use super::{
        Access, Answer, Card, Cursors, Edited, Meta, NewDevice, Numbers, Pair, Readiness, Record,
        Salvaged,
    };

    extern "C" {
        pub fn cimbrolau_cpu_field(
            state: *const u8,
            state_length: usize,
            field: u32,
            index: u32,
            out: *mut u8,
            out_length: usize,
        ) -> Answer;
        pub fn cimbrolau_mmu_field(
            state: *const u8,
            state_length: usize,
            field: u32,
            index: u32,
            out: *mut u8,
            out_length: usize,
        ) -> Answer;
        pub fn cimbrolau_cpu_set(
            state: *mut u8,
            state_length: usize,
            field: u32,
            index: u32,
            value: *const u8,
            value_length: usize,
        ) -> Answer;
        pub fn cimbrolau_mmu_set(
            state: *mut u8,
            state_length: usize,
            field: u32,
            index: u32,
            value: *const u8,
            value_length: usize,
        ) -> Answer;
        pub fn cimbrolau_access(word: u32) -> Access;
        pub fn cimbrolau_check(file: *const u8, file_length: usize) -> Answer;
        pub fn cimbrolau_sections(
            file: *const u8,
            file_length: usize,
            table: *mut u8,
            table_length: usize,
        ) -> Answer;
        pub fn cimbrolau_devices(
            file: *const u8,
            file_length: usize,
            table: *mut u8,
            table_length: usize,
        ) -> Answer;
        pub fn cimbrolau_disks(
            file: *const u8,
            file_length: usize,
            table: *mut u8,
            table_length: usize,
        ) -> Answer;
        pub fn cimbrolau_cpus(
            file: *const u8,
            file_length: usize,
            table: *mut u8,
            table_length: usize,
        ) -> Answer;
        pub fn cimbrolau_mmus(
            file: *const u8,
            file_length: usize,
            table: *mut u8,
            table_length: usize,
        ) -> Answer;
        pub fn cimbrolau_meta(file: *const u8, file_length: usize) -> Meta;
        pub fn cimbrolau_canonical(
            file: *const u8,
            file_length: usize,
            out: *mut u8,
            out_length: usize,
        ) -> Answer;
        pub fn cimbrolau_open(file: *const u8, file_length: usize) -> Edited;
        pub fn cimbrolau_add_device(
            file: *const u8,
            file_length: usize,
            card: Card,
            id: u32,
            version: u16,
            flags: u16,
            payload: *const u8,
            payload_length: usize,
            out: *mut u8,
            out_length: usize,
        ) -> Edited;
        pub fn cimbrolau_add_disk(
            file: *const u8,
            file_length: usize,
            card: Card,
            id: u32,
            base: *const u8,
            base_length: usize,
            overlay: *const u8,
            overlay_length: usize,
            out: *mut u8,
            out_length: usize,
        ) -> Edited;
        pub fn cimbrolau_add_devices(
            file: *const u8,
            file_length: usize,
            card: Card,
            table: *const u8,
            table_length: usize,
            store: *const u8,
            store_length: usize,
            out: *mut u8,
            out_length: usize,
        ) -> Edited;
        pub fn cimbrolau_add_devices_of(
            file: *const u8,
            file_length: usize,
            card: Card,
            table: *const NewDevice,
            table_count: usize,
            store: *const u8,
            store_length: usize,
            out: *mut u8,
            out_length: usize,
        ) -> Edited;
        pub fn cimbrolau_remove_device(
            file: *const u8,
            file_length: usize,
            card: Card,
            id: u32,
            version: u16,
            flags: u16,
            out: *mut u8,
            out_length: usize,
        ) -> Edited;
        pub fn cimbrolau_remove_disk(
            file: *const u8,
            file_length: usize,
            card: Card,
            id: u32,
            out: *mut u8,
            out_length: usize,
        ) -> Edited;
        pub fn cimbrolau_replace_device(
            file: *const u8,
            file_length: usize,
            card: Card,
            id: u32,
            version: u16,
            flags: u16,
            payload: *const u8,
            payload_length: usize,
            out: *mut u8,
            out_length: usize,
        ) -> Edited;
        pub fn cimbrolau_salvage(
            file: *const u8,
            file_length: usize,
            out: *mut u8,
            out_length: usize,
            losses: *mut u8,
            losses_length: usize,
        ) -> Salvaged;
        pub fn cimbrolau_wrapper_check(wrapper: *const u8, wrapper_length: usize) -> Answer;
        pub fn cimbrolau_controllers(
            wrapper: *const u8,
            wrapper_length: usize,
            table: *mut u8,
            table_length: usize,
        ) -> Answer;
        pub fn cimbrolau_wrapper_canonical(
            wrapper: *const u8,
            wrapper_length: usize,
            out: *mut u8,
            out_length: usize,
        ) -> Answer;
        pub fn cimbrolau_ready(
            file: *const u8,
            file_length: usize,
            list: *mut u8,
            list_length: usize,
        ) -> Readiness;
        pub fn cimbrolau_message_read(message: *const u8, message_length: usize) -> Numbers;
        pub fn cimbrolau_message_write(
            tag: u32,
            a: u64,
            b: u64,
            c: u64,
            d: u64,
            data: *const u8,
            data_length: usize,
            out: *mut u8,
            out_length: usize,
        ) -> Answer;
        pub fn cimbrolau_region_check(region: *const u8, region_length: usize) -> Answer;
        pub fn cimbrolau_ring_report(
            region: *const u8,
            region_length: usize,
            queue: u32,
        ) -> Cursors;
        pub fn cimbrolau_ring_reserve(
            region: *mut u8,
            region_length: usize,
            queue: u32,
            payload_length: u64,
        ) -> Pair;
        pub fn cimbrolau_ring_fill(
            region: *mut u8,
            region_length: usize,
            queue: u32,
            start: u32,
            end: u32,
            payload: *const u8,
            payload_length: usize,
        ) -> Answer;
        pub fn cimbrolau_ring_commit(
            region: *mut u8,
            region_length: usize,
            queue: u32,
            start: u32,
            end: u32,
        ) -> Answer;
        pub fn cimbrolau_ring_take(region: *mut u8, region_length: usize, queue: u32) -> Record;
    }
}

/// Checks a snapshot file: 0 at 0, or its first fault.
///
/// ```
/// let answer = cimbrolau::raw::check(b"AEROSNAP");
/// assert_eq!((answer.number, answer.place), (1, 0)); // SHORT
/// ```
pub fn check(file: &[u8]) -> Answer {
    // SAFETY: the pointer and the length are of one live slice, which the library reads during the call alone.
    unsafe { c::cimbrolau_check(file.as_ptr(), file.len()) }
}

/// Writes a record of 32 bytes for each section, in file order.
///
/// ```
/// let mut table = [7; 32];
/// let answer = cimbrolau::raw::sections(&cimbrolau::snapshot::EMPTY, &mut table);
/// assert_eq!((answer.number, answer.place), (0, 0)); // no section, so no record
/// assert_eq!(table, [7; 32]);
/// ```
pub fn sections(file: &[u8], table: &mut [u8]) -> Answer {
    // SAFETY: each pointer and length are of one live slice; the library reads `file` and writes within `table`,
    // which no other reference names, during the call alone.
    unsafe { c::cimbrolau_sections(file.as_ptr(), file.len(), table.as_mut_ptr(), table.len()) }
}

/// Writes a record of 32 bytes for each device, in the order of their keys.
///
/// ```
/// let answer = cimbrolau::raw::devices(&cimbrolau::snapshot::EMPTY, &mut []);
/// assert_eq!((answer.number, answer.place), (0, 0));
/// ```
pub fn devices(file: &[u8], table: &mut [u8]) -> Answer {
    // SAFETY: each pointer and length are of one live slice; the library reads `file` and writes within `table`,
    // which no other reference names, during the call alone.
    unsafe { c::cimbrolau_devices(file.as_ptr(), file.len(), table.as_mut_ptr(), table.len()) }
}

/// Writes a record of 32 bytes for each disk, in the order of their ids.
///
/// ```
/// let answer = cimbrolau::raw::disks(&cimbrolau::snapshot::EMPTY, &mut []);
/// assert_eq!((answer.number, answer.place), (0, 0));
/// ```
pub fn disks(file: &[u8], table: &mut [u8]) -> Answer {
    // SAFETY: each pointer and length are of one live slice; the library reads `file` and writes within `table`,
    // which no other reference names, during the call alone.
    unsafe { c::cimbrolau_disks(file.as_ptr(), file.len(), table.as_mut_ptr(), table.len()) }
}

/// Writes a record of 32 bytes for each CPU of a CPUS section, in the order of their APIC ids.
///
/// ```
/// let answer = cimbrolau::raw::cpus(&cimbrolau::snapshot::EMPTY, &mut []);
/// assert_eq!((answer.number, answer.place), (0, 0));
/// ```
pub fn cpus(file: &[u8], table: &mut [u8]) -> Answer {
    // SAFETY: each pointer and length are of one live slice; the library reads `file` and writes within `table`,
    // which no other reference names, during the call alone.
    unsafe { c::cimbrolau_cpus(file.as_ptr(), file.len(), table.as_mut_ptr(), table.len()) }
}

/// Writes a record of 32 bytes for each MMU of an MMUS section, in the order of their APIC ids.
///
/// ```
/// let answer = cimbrolau::raw::mmus(&cimbrolau::snapshot::EMPTY, &mut []);
/// assert_eq!((answer.number, answer.place), (0, 0));
/// ```
pub fn mmus(file: &[u8], table: &mut [u8]) -> Answer {
    // SAFETY: each pointer and length are of one live slice; the library reads `file` and writes within `table`,
    // which no other reference names, during the call alone.
    unsafe { c::cimbrolau_mmus(file.as_ptr(), file.len(), table.as_mut_ptr(), table.len()) }
}

/// What META says of a snapshot file. Beside a refusal, and in a file that has no META section, all else is 0.
///
/// ```
/// let meta = cimbrolau::raw::meta(&cimbrolau::snapshot::EMPTY);
/// assert_eq!((meta.number, meta.present), (0, 0));
/// ```
pub fn meta(file: &[u8]) -> Meta {
    // SAFETY: pointer and length are of one live slice, which the library reads during the call alone.
    unsafe { c::cimbrolau_meta(file.as_ptr(), file.len()) }
}

/// Writes the canonical form of a snapshot file.
///
/// ```
/// let mut out = [0; 20];
/// let answer = cimbrolau::raw::canonical(&cimbrolau::snapshot::EMPTY, &mut out);
/// assert_eq!((answer.number, answer.place), (0, 16));
/// assert_eq!(out[..16], cimbrolau::snapshot::EMPTY);
/// ```
pub fn canonical(file: &[u8], out: &mut [u8]) -> Answer {
    // SAFETY: each pointer and length are of one live slice; the library reads `file` and writes within `out`,
    // which no other reference names, during the call alone.
    unsafe { c::cimbrolau_canonical(file.as_ptr(), file.len(), out.as_mut_ptr(), out.len()) }
}

/// Checks a snapshot file, and makes the card of its canonical form.
///
/// ```
/// let answer = cimbrolau::raw::open(&cimbrolau::snapshot::EMPTY);
/// assert_eq!((answer.number, answer.card), (0, cimbrolau::Card::EMPTY));
/// ```
pub fn open(file: &[u8]) -> Edited {
    // SAFETY: the pointer and the length are of one live slice, which the library reads during the call alone.
    unsafe { c::cimbrolau_open(file.as_ptr(), file.len()) }
}

/// Writes the canonical form of a snapshot file with one device more, and moves the card by it.
///
/// ```
/// use cimbrolau::{raw, snapshot::EMPTY, Card};
/// let mut out = [0; 64];
/// let answer = raw::add_device(&EMPTY, Card::EMPTY, 3, 1, 0, &[0xAB, 0xCD], &mut out);
/// assert_eq!((answer.number, answer.place), (0, 54)); // header 16, section 16, count 4, entry 16 and 2
/// assert_eq!(out[52..54], [0xAB, 0xCD]);
/// assert_eq!(answer.card, Card { length: 54, sections: 1, devices: 1, payloads: 2 });
///
/// // A card that is not the file's moves as well, up to its bounds.
/// let untrue = Card { devices: 4096, ..Card::EMPTY };
/// let answer = raw::add_device(&EMPTY, untrue, 3, 1, 0, &[], &mut out);
/// assert_eq!((answer.number, answer.card), (28, untrue)); // CARD
/// ```
pub fn add_device(
    file: &[u8],
    card: Card,
    id: u32,
    version: u16,
    flags: u16,
    payload: &[u8],
    out: &mut [u8],
) -> Edited {
    // SAFETY: each pointer and length are of one live slice; the library reads `file` and `payload` and writes within
    // `out`, which no other reference names, during the call alone.
    unsafe {
        c::cimbrolau_add_device(
            file.as_ptr(),
            file.len(),
            card,
            id,
            version,
            flags,
            payload.as_ptr(),
            payload.len(),
            out.as_mut_ptr(),
            out.len(),
        )
    }
}

/// Writes the canonical form of a snapshot file with one disk more.
///
/// ```
/// use cimbrolau::{raw, snapshot::EMPTY, Card};
/// let mut out = [0; 64];
/// let answer = raw::add_disk(&EMPTY, Card::EMPTY, 1, b"base.img", b"", &mut out);
/// assert_eq!((answer.number, answer.place), (0, 56)); // header 16, section 16, count 4, entry 4, 4 and 8, 4
/// assert_eq!(&out[44..52], b"base.img");
/// assert_eq!(answer.card, Card { length: 56, sections: 1, ..Card::EMPTY });
/// ```
pub fn add_disk(
    file: &[u8],
    card: Card,
    id: u32,
    base: &[u8],
    overlay: &[u8],
    out: &mut [u8],
) -> Edited {
    // SAFETY: each pointer and length are of one live slice; the library reads `file`, `base` and `overlay` and writes
    // within `out`, which no other reference names, during the call alone.
    unsafe {
        c::cimbrolau_add_disk(
            file.as_ptr(),
            file.len(),
            card,
            id,
            base.as_ptr(),
            base.len(),
            overlay.as_ptr(),
            overlay.len(),
            out.as_mut_ptr(),
            out.len(),
        )
    }
}

/// Writes the canonical form of a snapshot file with many devices more: as [`add_device`] for one entry of the table after the
/// other would, each into a buffer of the output's length. The first entry that is refused is named by its index.
///
/// The table has 24 bytes for each entry: u32 id, u16 version, u16 flags, u64 place, u64 length, low bytes first; the payload is
/// that part of `store`. A part record at the end is no entry. [`add_devices_of`] takes the same as a slice of [`NewDevice`].
///
/// ```
/// use cimbrolau::{raw, snapshot::EMPTY, Card};
/// let mut table = [0; 48];
/// table[..8].copy_from_slice(&[14, 0, 0, 0, 1, 0, 0, 0]);
/// (table[8], table[16]) = (2, 1); // one byte at 2
/// table[24..32].copy_from_slice(&[3, 0, 0, 0, 1, 0, 0, 0]);
/// (table[32], table[40]) = (0, 2); // two bytes at 0
/// let mut out = [0; 71];
/// let answer = raw::add_devices(&EMPTY, Card::EMPTY, &table, &[0xAB, 0xCD, 0x11], &mut out);
/// assert_eq!((answer.number, answer.index, answer.place), (0, 0, 71));
/// assert_eq!((&out[52..54], out[70]), (&[0xAB, 0xCD][..], 0x11)); // in the order of their keys
///
/// let answer = raw::add_devices(&EMPTY, Card::EMPTY, &table, &[0x11], &mut out);
/// assert_eq!((answer.number, answer.index), (26, 0)); // PAYLOAD: the first entry's is not there
/// ```
pub fn add_devices(file: &[u8], card: Card, table: &[u8], store: &[u8], out: &mut [u8]) -> Edited {
    // SAFETY: each pointer and length are of one live slice; the library reads `file`, `table` and `store` and writes within
    // `out`, which no other reference names, during the call alone.
    unsafe {
        c::cimbrolau_add_devices(
            file.as_ptr(),
            file.len(),
            card,
            table.as_ptr(),
            table.len(),
            store.as_ptr(),
            store.len(),
            out.as_mut_ptr(),
            out.len(),
        )
    }
}

/// [`add_devices`] over a slice of new devices instead of a table's bytes.
///
/// ```
/// use cimbrolau::{raw, snapshot::EMPTY, Card};
/// let new = |id, place, length| raw::NewDevice { id, version: 1, flags: 0, place, length };
/// let devices = [new(14, 2, 1), new(3, 0, 2), new(14, 0, 0)];
/// let store = [0xAB, 0xCD, 0x11];
/// let mut out = [0; 71];
/// let answer = raw::add_devices_of(&EMPTY, Card::EMPTY, &devices[..2], &store, &mut out);
/// assert_eq!((answer.number, answer.place), (0, 71));
///
/// let answer = raw::add_devices_of(&EMPTY, Card::EMPTY, &devices, &store, &mut out);
/// assert_eq!((answer.number, answer.index), (17, 2)); // HAVE
/// ```
pub fn add_devices_of(
    file: &[u8],
    card: Card,
    devices: &[NewDevice],
    store: &[u8],
    out: &mut [u8],
) -> Edited {
    // SAFETY: each pointer and length are of one live slice, the devices' of so many structs that C lays out as this crate
    // does; the library reads `file`, `devices` and `store` and writes within `out`, which no other reference names, during
    // the call alone.
    unsafe {
        c::cimbrolau_add_devices_of(
            file.as_ptr(),
            file.len(),
            card,
            devices.as_ptr(),
            devices.len(),
            store.as_ptr(),
            store.len(),
            out.as_mut_ptr(),
            out.len(),
        )
    }
}

/// The table's bytes of these devices: their own, where the machine has the low byte first as the records have.
pub(crate) fn table_of(devices: &[NewDevice]) -> Cow<'_, [u8]> {
    if cfg!(target_endian = "big") {
        return Cow::Owned(devices.iter().flat_map(|device| device.record()).collect());
    }
    // SAFETY: the bytes are those of one live slice, which is borrowed for as long as they are. All of them are initialised:
    // the fields of a `NewDevice` are plain numbers that fill its 24 bytes (asserted above), so that there is no padding in
    // one, nor between two. Any address suits a `u8`.
    Cow::Borrowed(unsafe {
        std::slice::from_raw_parts(devices.as_ptr().cast(), size_of_val(devices))
    })
}

impl NewDevice {
    /// The record of a table: the numbers in their order, low bytes first.
    ///
    /// ```
    /// let device = cimbrolau::raw::NewDevice { id: 3, version: 1, flags: 0, place: 256, length: 2 };
    /// let record = [3, 0, 0, 0, 1, 0, 0, 0, 0, 1, 0, 0, 0, 0, 0, 0, 2, 0, 0, 0, 0, 0, 0, 0];
    /// assert_eq!(device.record(), record);
    /// ```
    pub fn record(&self) -> [u8; 24] {
        let mut record = [0; 24];
        record[..4].copy_from_slice(&self.id.to_le_bytes());
        record[4..6].copy_from_slice(&self.version.to_le_bytes());
        record[6..8].copy_from_slice(&self.flags.to_le_bytes());
        record[8..16].copy_from_slice(&self.place.to_le_bytes());
        record[16..].copy_from_slice(&self.length.to_le_bytes());
        record
    }
}

/// Writes the canonical form of a snapshot file without one of its devices.
///
/// ```
/// use cimbrolau::{raw, snapshot, Card};
/// let (file, card) = snapshot::add_device(&snapshot::EMPTY, Card::EMPTY, (3, 1, 0), &[0xAB, 0xCD])?;
/// let mut out = [0; 64];
/// let answer = raw::remove_device(&file, card, 3, 1, 0, &mut out);
/// assert_eq!((answer.number, answer.place), (0, 16)); // the last device's removal removes its section
/// assert_eq!(answer.card, Card::EMPTY);
/// assert_eq!(raw::remove_device(&file, card, 3, 1, 1, &mut out).number, 25); // ABSENT
/// # Ok::<(), cimbrolau::Refusal>(())
/// ```
pub fn remove_device(
    file: &[u8],
    card: Card,
    id: u32,
    version: u16,
    flags: u16,
    out: &mut [u8],
) -> Edited {
    // SAFETY: each pointer and length are of one live slice; the library reads `file` and writes within `out`,
    // which no other reference names, during the call alone.
    unsafe {
        c::cimbrolau_remove_device(
            file.as_ptr(),
            file.len(),
            card,
            id,
            version,
            flags,
            out.as_mut_ptr(),
            out.len(),
        )
    }
}

/// Writes the canonical form of a snapshot file without one of its disks.
///
/// ```
/// use cimbrolau::{raw, snapshot, Card};
/// let (file, card) = snapshot::add_disk(&snapshot::EMPTY, Card::EMPTY, 1, b"base.img", b"")?;
/// let mut out = [0; 64];
/// let answer = raw::remove_disk(&file, card, 1, &mut out);
/// assert_eq!((answer.number, answer.place), (0, 16));
/// # Ok::<(), cimbrolau::Refusal>(())
/// ```
pub fn remove_disk(file: &[u8], card: Card, id: u32, out: &mut [u8]) -> Edited {
    // SAFETY: each pointer and length are of one live slice; the library reads `file` and writes within `out`,
    // which no other reference names, during the call alone.
    unsafe {
        c::cimbrolau_remove_disk(file.as_ptr(), file.len(), card, id, out.as_mut_ptr(), out.len())
    }
}

/// Writes the canonical form of a snapshot file with another payload in one of its devices.
///
/// ```
/// use cimbrolau::{raw, snapshot, Card};
/// let (file, card) = snapshot::add_device(&snapshot::EMPTY, Card::EMPTY, (3, 1, 0), &[0xAB, 0xCD])?;
/// let mut out = [0; 64];
/// let answer = raw::replace_device(&file, card, 3, 1, 0, &[0xEF], &mut out);
/// assert_eq!((answer.number, answer.place), (0, 53));
/// assert_eq!(out[52], 0xEF);
/// # Ok::<(), cimbrolau::Refusal>(())
/// ```
pub fn replace_device(
    file: &[u8],
    card: Card,
    id: u32,
    version: u16,
    flags: u16,
    payload: &[u8],
    out: &mut [u8],
) -> Edited {
    // SAFETY: each pointer and length are of one live slice; the library reads `file` and `payload` and writes within
    // `out`, which no other reference names, during the call alone.
    unsafe {
        c::cimbrolau_replace_device(
            file.as_ptr(),
            file.len(),
            card,
            id,
            version,
            flags,
            payload.as_ptr(),
            payload.len(),
            out.as_mut_ptr(),
            out.len(),
        )
    }
}

/// Writes the canonical form of what can be kept of a damaged snapshot file, and a record of 24 bytes for each loss: u64 start,
/// u64 bytes lost, u32 refusal number, u32 0.
///
/// ```
/// use cimbrolau::raw;
/// let file = [&cimbrolau::snapshot::EMPTY[..], b"stray"].concat();
/// let (mut out, mut losses) = ([0; 16], [0; 24]);
/// let answer = raw::salvage(&file, &mut out, &mut losses);
/// assert_eq!((answer.number, answer.place, answer.losses), (0, 16, 1));
/// assert_eq!(out, cimbrolau::snapshot::EMPTY);
/// assert_eq!(losses, [16, 0, 0, 0, 0, 0, 0, 0, 5, 0, 0, 0, 0, 0, 0, 0, 7, 0, 0, 0, 0, 0, 0, 0]); // CUT
/// ```
pub fn salvage(file: &[u8], out: &mut [u8], losses: &mut [u8]) -> Salvaged {
    // SAFETY: each pointer and length are of one live slice; the library reads `file` and writes within `out` and `losses`,
    // which no other references name, during the call alone.
    unsafe {
        c::cimbrolau_salvage(
            file.as_ptr(),
            file.len(),
            out.as_mut_ptr(),
            out.len(),
            losses.as_mut_ptr(),
            losses.len(),
        )
    }
}

/// Checks a disk-controller wrapper: 0 at 0, or its first fault.
///
/// ```
/// let answer = cimbrolau::raw::wrapper_check(&cimbrolau::wrapper::EMPTY);
/// assert_eq!((answer.number, answer.place), (0, 0));
/// ```
pub fn wrapper_check(wrapper: &[u8]) -> Answer {
    // SAFETY: the pointer and the length are of one live slice, which the library reads during the call alone.
    unsafe { c::cimbrolau_wrapper_check(wrapper.as_ptr(), wrapper.len()) }
}

/// Writes a record of 32 bytes for each controller, in the order of their addresses.
///
/// ```
/// let answer = cimbrolau::raw::controllers(&cimbrolau::wrapper::EMPTY, &mut []);
/// assert_eq!((answer.number, answer.place), (0, 0));
/// ```
pub fn controllers(wrapper: &[u8], table: &mut [u8]) -> Answer {
    // SAFETY: each pointer and length are of one live slice; the library reads `wrapper` and writes within `table`,
    // which no other reference names, during the call alone.
    unsafe {
        c::cimbrolau_controllers(wrapper.as_ptr(), wrapper.len(), table.as_mut_ptr(), table.len())
    }
}

/// Writes the canonical form of a disk-controller wrapper.
///
/// ```
/// let mut out = [0; 20];
/// let answer = cimbrolau::raw::wrapper_canonical(&cimbrolau::wrapper::EMPTY, &mut out);
/// assert_eq!((answer.number, answer.place), (0, 20));
/// assert_eq!(out, cimbrolau::wrapper::EMPTY);
/// ```
pub fn wrapper_canonical(wrapper: &[u8], out: &mut [u8]) -> Answer {
    // SAFETY: each pointer and length are of one live slice; the library reads `wrapper` and writes within `out`,
    // which no other reference names, during the call alone.
    unsafe {
        c::cimbrolau_wrapper_canonical(wrapper.as_ptr(), wrapper.len(), out.as_mut_ptr(), out.len())
    }
}

/// Whether a snapshot file is ready to restore; if it is not, writes the pairs of what is missing, two u32 each: 1 and the
/// id of a device, then 2 and the id of a disk.
///
/// ```
/// let mut list = [0; 80];
/// let answer = cimbrolau::raw::ready(&cimbrolau::snapshot::EMPTY, &mut list);
/// assert_eq!((answer.number, answer.yes, answer.place), (0, 0, 72)); // all nine are missing
/// assert_eq!(list[..8], [1, 0, 0, 0, 3, 0, 0, 0]);
/// assert_eq!(list[64..72], [2, 0, 0, 0, 1, 0, 0, 0]);
/// ```
pub fn ready(file: &[u8], list: &mut [u8]) -> Readiness {
    // SAFETY: each pointer and length are of one live slice; the library reads `file` and writes within `list`,
    // which no other reference names, during the call alone.
    unsafe { c::cimbrolau_ready(file.as_ptr(), file.len(), list.as_mut_ptr(), list.len()) }
}

/// Reads a message.
///
/// ```
/// let n = cimbrolau::raw::message_read(&[0x01, 0x11, 7, 0, 0, 0, 15, 0, 0, 0]);
/// assert_eq!((n.number, n.tag, n.a, n.b), (0, 0x1101, 7, 15)); // PortReadResp, id 7, value 15
/// ```
pub fn message_read(message: &[u8]) -> Numbers {
    // SAFETY: the pointer and the length are of one live slice, which the library reads during the call alone.
    unsafe { c::cimbrolau_message_read(message.as_ptr(), message.len()) }
}

/// Writes a message. A tag that is unknown is TAG; a number too wide for its field, or beside a field that is not
/// there, is VALUE.
///
/// ```
/// let mut out = [0; 16];
/// let answer = cimbrolau::raw::message_write(0x1101, 7, 15, 0, 0, &[], &mut out);
/// assert_eq!((answer.number, answer.place), (0, 10));
/// assert_eq!(out[..10], [0x01, 0x11, 7, 0, 0, 0, 15, 0, 0, 0]);
/// ```
pub fn message_write(
    tag: u32,
    a: u64,
    b: u64,
    c: u64,
    d: u64,
    data: &[u8],
    out: &mut [u8],
) -> Answer {
    // SAFETY: each pointer and length are of one live slice; the library reads `data` and writes within `out`,
    // which no other reference names, during the call alone.
    unsafe {
        c::cimbrolau_message_write(
            tag,
            a,
            b,
            c,
            d,
            data.as_ptr(),
            data.len(),
            out.as_mut_ptr(),
            out.len(),
        )
    }
}

/// Checks a region: 0 at 0, or its first wrong field.
///
/// ```
/// let answer = cimbrolau::raw::region_check(b"AIPC");
/// assert_eq!((answer.number, answer.place), (20, 0)); // REGION
/// ```
pub fn region_check(region: &[u8]) -> Answer {
    // SAFETY: the pointer and the length are of one live slice, which the library reads during the call alone.
    unsafe { c::cimbrolau_region_check(region.as_ptr(), region.len()) }
}

/// Reports the cursors of a queue.
///
/// ```
/// use cimbrolau::{raw, region};
/// let bytes = region::layout(&[region::Plan { kind: 0, capacity: 64 }])?;
/// let cursors = raw::ring_report(&bytes, 0);
/// assert_eq!((cursors.head, cursors.reserve, cursors.commit), (0, 0, 0));
/// # Ok::<(), cimbrolau::Refusal>(())
/// ```
pub fn ring_report(region: &[u8], queue: u32) -> Cursors {
    // SAFETY: the pointer and the length are of one live slice, which the library reads during the call alone.
    unsafe { c::cimbrolau_ring_report(region.as_ptr(), region.len(), queue) }
}

/// Reserves the bytes that a payload of a length needs in the ring of a queue.
///
/// ```
/// use cimbrolau::{raw, region};
/// let mut bytes = region::layout(&[region::Plan { kind: 0, capacity: 64 }])?;
/// let pair = raw::ring_reserve(&mut bytes, 0, 5);
/// assert_eq!((pair.number, pair.start, pair.end), (0, 0, 12)); // a length, five bytes, padding
/// # Ok::<(), cimbrolau::Refusal>(())
/// ```
pub fn ring_reserve(region: &mut [u8], queue: u32, payload_length: u64) -> Pair {
    // SAFETY: the pointer and the length are of one live slice, within which the library reads and writes during the call
    // alone, and which no other reference names.
    unsafe { c::cimbrolau_ring_reserve(region.as_mut_ptr(), region.len(), queue, payload_length) }
}

/// Writes the payload's record into a pair that was reserved for it.
///
/// ```
/// use cimbrolau::{raw, region};
/// let mut bytes = region::layout(&[region::Plan { kind: 0, capacity: 64 }])?;
/// let pair = raw::ring_reserve(&mut bytes, 0, 5);
/// let answer = raw::ring_fill(&mut bytes, 0, pair.start, pair.end, b"level");
/// assert_eq!((answer.number, answer.place), (0, 12));
/// # Ok::<(), cimbrolau::Refusal>(())
/// ```
pub fn ring_fill(region: &mut [u8], queue: u32, start: u32, end: u32, payload: &[u8]) -> Answer {
    // SAFETY: each pointer and length are of one live slice; the library reads `payload` and reads and writes within
    // `region`, which no other reference names, during the call alone.
    unsafe {
        c::cimbrolau_ring_fill(
            region.as_mut_ptr(),
            region.len(),
            queue,
            start,
            end,
            payload.as_ptr(),
            payload.len(),
        )
    }
}

/// Hands a pair on to the taker.
///
/// ```
/// use cimbrolau::{raw, region};
/// let mut bytes = region::layout(&[region::Plan { kind: 0, capacity: 64 }])?;
/// let pair = raw::ring_reserve(&mut bytes, 0, 0);
/// assert_eq!(raw::ring_commit(&mut bytes, 0, 4, 8).number, 29); // TURN
/// assert_eq!(raw::ring_commit(&mut bytes, 0, pair.start, pair.end).number, 0);
/// # Ok::<(), cimbrolau::Refusal>(())
/// ```
pub fn ring_commit(region: &mut [u8], queue: u32, start: u32, end: u32) -> Answer {
    // SAFETY: the pointer and the length are of one live slice, within which the library reads and writes during the call
    // alone, and which no other reference names.
    unsafe { c::cimbrolau_ring_commit(region.as_mut_ptr(), region.len(), queue, start, end) }
}

/// Takes the next record of a queue.
///
/// ```
/// use cimbrolau::{raw, region};
/// let mut bytes = region::layout(&[region::Plan { kind: 0, capacity: 64 }])?;
/// assert_eq!(raw::ring_take(&mut bytes, 0).number, 23); // EMPTY
/// # Ok::<(), cimbrolau::Refusal>(())
/// ```
pub fn ring_take(region: &mut [u8], queue: u32) -> Record {
    // SAFETY: the pointer and the length are of one live slice, within which the library reads and writes during the call
    // alone, and which no other reference names.
    unsafe { c::cimbrolau_ring_take(region.as_mut_ptr(), region.len(), queue) }
}

/// The bytes of a field of a CPU state of version 2 into `out`, by the field's number and its index.
///
/// ```
/// let state = [0; 1183];
/// let mut out = [0; 8];
/// assert_eq!(cimbrolau::raw::cpu_field(&state, 0, 15, &mut out).place, 8); // R15
/// assert_eq!(cimbrolau::raw::cpu_field(&state, 0, 16, &mut out).number, 11); // SHAPE: there is none
/// ```
pub fn cpu_field(state: &[u8], field: u32, index: u32, out: &mut [u8]) -> Answer {
    // SAFETY: each pointer and length are of one live slice; the library reads `state` and writes within `out`, which no
    // other reference names, during the call alone.
    unsafe {
        c::cimbrolau_cpu_field(
            state.as_ptr(),
            state.len(),
            field,
            index,
            out.as_mut_ptr(),
            out.len(),
        )
    }
}

/// A field of a CPU state of version 2 set in place, if the state as it would be is accepted.
///
/// ```
/// let mut state = [0; 1183];
/// let answer = cimbrolau::raw::cpu_set(&mut state, 0, 1, &[1, 2, 3, 4, 5, 6, 7, 8]);
/// assert_eq!((answer.number, answer.place), (0, 8));
/// assert_eq!(state[8..16], [1, 2, 3, 4, 5, 6, 7, 8]);
/// ```
pub fn cpu_set(state: &mut [u8], field: u32, index: u32, value: &[u8]) -> Answer {
    // SAFETY: each pointer and length are of one live slice; the library reads `value` and reads and writes within
    // `state`, which no other reference names, during the call alone.
    unsafe {
        c::cimbrolau_cpu_set(
            state.as_mut_ptr(),
            state.len(),
            field,
            index,
            value.as_ptr(),
            value.len(),
        )
    }
}

/// The bytes of a field of a MMU state of version 2 into `out`, by the field's number and its index.
///
/// ```
/// let state = [0; 264];
/// let mut out = [0; 8];
/// assert_eq!(cimbrolau::raw::mmu_field(&state, 0, 4, &mut out).place, 8); // CR8
/// assert_eq!(cimbrolau::raw::mmu_field(&state, 0, 5, &mut out).number, 11); // SHAPE: there is none
/// ```
pub fn mmu_field(state: &[u8], field: u32, index: u32, out: &mut [u8]) -> Answer {
    // SAFETY: each pointer and length are of one live slice; the library reads `state` and writes within `out`, which no
    // other reference names, during the call alone.
    unsafe {
        c::cimbrolau_mmu_field(
            state.as_ptr(),
            state.len(),
            field,
            index,
            out.as_mut_ptr(),
            out.len(),
        )
    }
}

/// A field of a MMU state of version 2 set in place, if the state as it would be is accepted.
///
/// ```
/// let mut state = [0; 264];
/// let answer = cimbrolau::raw::mmu_set(&mut state, 0, 1, &[1, 2, 3, 4, 5, 6, 7, 8]);
/// assert_eq!((answer.number, answer.place), (0, 8));
/// assert_eq!(state[8..16], [1, 2, 3, 4, 5, 6, 7, 8]);
/// ```
pub fn mmu_set(state: &mut [u8], field: u32, index: u32, value: &[u8]) -> Answer {
    // SAFETY: each pointer and length are of one live slice; the library reads `value` and reads and writes within
    // `state`, which no other reference names, during the call alone.
    unsafe {
        c::cimbrolau_mmu_set(
            state.as_mut_ptr(),
            state.len(),
            field,
            index,
            value.as_ptr(),
            value.len(),
        )
    }
}

/// The parts of a segment's access word.
///
/// ```
/// let parts = cimbrolau::raw::access(0xA09B);
/// assert_eq!((parts.kind, parts.level, parts.present, parts.long_mode), (11, 0, 1, 1));
/// assert_eq!((parts.size, parts.granularity, parts.unusable, parts.rest), (0, 1, 0, 16));
/// ```
pub fn access(word: u32) -> Access {
    // SAFETY: a number goes in and numbers come out.
    unsafe { c::cimbrolau_access(word) }
}

#[cfg(test)]
mod tests {
    use super::*;
    use crate::snapshot::EMPTY;

    #[test]
    fn a_slice_of_new_devices_answers_as_its_records() {
        let mut devices: Vec<NewDevice> = (0..5u32)
            .map(|at| NewDevice {
                id: 0x0403_0201 + at,
                version: 0x0605,
                flags: 0x0807,
                place: u64::from(at),
                length: 2,
            })
            .collect();
        devices.push(NewDevice { length: u64::MAX, ..devices[0] });
        let records: Vec<u8> = devices.iter().flat_map(NewDevice::record).collect();
        for count in 0..=devices.len() {
            let (mut of_structs, mut of_bytes) = ([7; 160], [7; 160]);
            let (list, table) = (&devices[..count], &records[..24 * count]);
            assert_eq!(table_of(list), table);
            let answer = add_devices_of(&EMPTY, Card::EMPTY, list, b"abcdef", &mut of_structs);
            assert_eq!(answer, add_devices(&EMPTY, Card::EMPTY, table, b"abcdef", &mut of_bytes));
            assert_eq!(of_structs, of_bytes);
            assert_eq!((answer.number, answer.index), if count == 6 { (26, 5) } else { (0, 0) });
        }
    }
}
