//! Regions of shared memory and the rings in them: checked, reported, and used by four calls.
//!
//! A region is a header, a descriptor for each queue, and the rings, each a header with three cursors and
//! the data. Headers and descriptors are four u32 each. Cursors count bytes and wrap at 2^32, which every
//! capacity divides; a cursor's place in the ring is its remainder by the capacity. Every call checks the
//! whole region first.

use crate::answer::{answered, ask, Answer, Taken, BIG, EMPTY, FULL, RECORD, REGION, TURN};
use crate::cursor::u32_at;

const MAGIC: u32 = u32::from_le_bytes(*b"AIPC");
const VERSION: u32 = 1;
const MOST_QUEUES: u32 = 64;

/// The bytes of the region's header, of a descriptor and of a ring's header alike.
const FOUR: usize = 16;

/// Where the cursors stand in a ring's header.
const HEAD: usize = 0;
const RESERVE: usize = 4;
const COMMIT: usize = 8;

/// What stands in the place of a record's length where the ring's end is skipped.
const WRAP_MARKER: u32 = u32::MAX;

/// A length or a marker, and a cursor.
const PREFIX: u32 = 4;
const CURSOR: usize = 4;

/// The cursors of a queue as hosts show them, or all 0 beside the number and place of a refusal.
#[repr(C)]
#[derive(Clone, Copy, Debug, Default, PartialEq, Eq)]
pub struct Cursors {
    pub number: u32,
    pub place: u64,
    pub head: i32,
    pub reserve: i32,
    pub commit: i32,
}

/// The bytes reserved for a record, skip included, from cursor to cursor.
#[repr(C)]
#[derive(Clone, Copy, Debug, Default, PartialEq, Eq)]
pub struct Pair {
    pub number: u32,
    pub place: u64,
    pub start: u32,
    pub end: u32,
}

/// Where the payload of a taken record stands in the region.
#[repr(C)]
#[derive(Clone, Copy, Debug, Default, PartialEq, Eq)]
pub struct Record {
    pub number: u32,
    pub place: u64,
    pub payload_place: u64,
    pub payload_length: u64,
}

/// Checks a region.
pub fn region_check(region: &[u8]) -> Answer {
    answered(check(region, None).map(|_| 0))
}

/// The cursors of a queue.
pub fn ring_report(region: &[u8], queue: u32) -> Cursors {
    match Ring::checked(region, queue) {
        Ok(ring) => Cursors {
            head: ring.head as i32,
            reserve: ring.reserve as i32,
            commit: ring.commit as i32,
            ..Cursors::default()
        },
        Err(Answer { number, place }) => Cursors { number, place, ..Cursors::default() },
    }
}

/// Reserves the bytes that a payload of this length needs.
pub fn ring_reserve(region: &mut [u8], queue: u32, length: u64) -> Pair {
    match reserve(region, queue, length) {
        Ok((start, end)) => Pair { number: 0, place: CURSOR as u64, start, end },
        Err(Answer { number, place }) => Pair { number, place, ..Pair::default() },
    }
}

/// Writes the payload's record into the pair, behind the marker of a skip if there is one.
pub fn ring_fill(region: &mut [u8], queue: u32, start: u32, end: u32, payload: &[u8]) -> Answer {
    answered(fill(region, queue, (start, end), payload))
}

/// Hands the pair on to the taker.
pub fn ring_commit(region: &mut [u8], queue: u32, start: u32, end: u32) -> Answer {
    answered(commit(region, queue, (start, end)))
}

/// Takes the next record.
pub fn ring_take(region: &mut [u8], queue: u32) -> Record {
    match take(region, queue) {
        Ok((payload_place, payload_length)) => {
            Record { number: 0, place: CURSOR as u64, payload_place, payload_length }
        }
        Err(Answer { number, place }) => Record { number, place, ..Record::default() },
    }
}

// The region.

/// The four numbers at a place.
fn four(region: &[u8], at: usize) -> [u32; 4] {
    let bytes = &region[at..at + FOUR];
    [u32_at(bytes, 0), u32_at(bytes, 4), u32_at(bytes, 8), u32_at(bytes, 12)]
}

/// Where a descriptor stands.
fn descriptor_place(queue: u32) -> usize {
    FOUR + FOUR * queue as usize
}

/// Checks header, descriptors and ring headers in this order, and with the header that an asked queue is
/// there.
fn check(region: &[u8], asked: Option<u32>) -> Taken<()> {
    ask(region.len() >= FOUR, REGION, 0)?;
    let [magic, version, total, count] = four(region, 0);
    ask(magic == MAGIC, REGION, 0)?;
    ask(version == VERSION, REGION, 4)?;
    ask(u64::from(total) == region.len() as u64, REGION, 8)?;
    ask(count <= MOST_QUEUES && descriptor_place(count) <= region.len(), REGION, 12)?;
    ask(asked.is_none_or(|queue| queue < count), REGION, 12)?;
    check_descriptors(region, count)?;
    check_rings(region, count)
}

fn check_descriptors(region: &[u8], count: u32) -> Taken<()> {
    let behind = descriptor_place(count) as u64;
    let mut highest = behind;
    for queue in 0..count {
        let at = descriptor_place(queue);
        let [_kind, offset, capacity, reserved] = four(region, at);
        let (start, end) = extent(offset, capacity);
        let inside = start >= behind && end <= region.len() as u64;
        ask(is_aligned(offset) && inside, REGION, at + 4)?;
        // Rings mostly stand in the order of their descriptors, each behind all before it.
        ask(start >= highest || !meets_earlier(region, queue, start, end), REGION, at + 4)?;
        highest = highest.max(end);
        ask(is_capacity(capacity), REGION, at + 8)?;
        ask(reserved == 0, REGION, at + 12)?;
    }
    Ok(())
}

/// Where a ring starts and ends, its header included.
fn extent(offset: u32, capacity: u32) -> (u64, u64) {
    let start = u64::from(offset);
    (start, start + FOUR as u64 + u64::from(capacity))
}

/// Whether these bytes are also some of those of a ring before `queue`.
fn meets_earlier(region: &[u8], queue: u32, start: u64, end: u64) -> bool {
    (0..queue).any(|earlier| {
        let [_, offset, capacity, _] = four(region, descriptor_place(earlier));
        let (other_start, other_end) = extent(offset, capacity);
        start < other_end && other_start < end
    })
}

fn is_capacity(capacity: u32) -> bool {
    capacity.is_power_of_two() && (64..=65_536).contains(&capacity)
}

/// Checks the ring headers of descriptors that are right.
fn check_rings(region: &[u8], count: u32) -> Taken<()> {
    for queue in 0..count {
        let [_, offset, capacity, _] = four(region, descriptor_place(queue));
        let at = offset as usize;
        let [head, reserve, commit, stated] = four(region, at);
        // Each distance wraps on purpose; their sum must not.
        let committed = u64::from(commit.wrapping_sub(head));
        let pending = u64::from(reserve.wrapping_sub(commit));
        let near = committed + pending <= u64::from(capacity);
        ask(is_aligned(head) && near, REGION, at + HEAD)?;
        ask(is_aligned(reserve), REGION, at + RESERVE)?;
        ask(is_aligned(commit), REGION, at + COMMIT)?;
        ask(stated == capacity, REGION, at + 12)?;
    }
    Ok(())
}

// One ring.

/// A ring of a region that was checked.
#[derive(Clone, Copy)]
struct Ring {
    /// Where its header stands in the region.
    place: usize,
    head: u32,
    reserve: u32,
    commit: u32,
    capacity: u32,
}

impl Ring {
    /// Checks the whole region and reads the ring of a queue.
    fn checked(region: &[u8], queue: u32) -> Taken<Ring> {
        check(region, Some(queue))?;
        let [_, offset, _, _] = four(region, descriptor_place(queue));
        let place = offset as usize;
        let [head, reserve, commit, capacity] = four(region, place);
        Ok(Ring { place, head, reserve, commit, capacity })
    }

    /// A cursor's place among the ring's data.
    fn position(&self, cursor: u32) -> u32 {
        cursor & (self.capacity - 1)
    }

    /// A cursor's place in the region.
    fn place_of(&self, cursor: u32) -> usize {
        self.place + FOUR + self.position(cursor) as usize
    }

    /// The bytes from a cursor to the ring's end.
    fn left(&self, cursor: u32) -> u32 {
        self.capacity - self.position(cursor)
    }

    /// The bytes that a record of this length skips at a cursor: all that is left, if it is larger.
    fn skip(&self, cursor: u32, record: u64) -> u32 {
        let left = self.left(cursor);
        if record > u64::from(left) {
            left
        } else {
            0
        }
    }
}

/// The bytes of a record: prefix, payload and padding. A payload that no u64 holds with them is as far
/// above every capacity as the largest number is.
fn record_length(payload: u64) -> u64 {
    payload.saturating_add(7) & !3
}

/// Whether a cursor or an offset is a multiple of 4.
fn is_aligned(number: u32) -> bool {
    number.is_multiple_of(4)
}

/// Stores a number of four bytes.
fn store(region: &mut [u8], at: usize, number: u32) {
    region[at..at + 4].copy_from_slice(&number.to_le_bytes());
}

// The calls.

fn reserve(region: &mut [u8], queue: u32, length: u64) -> Taken<(u32, u32)> {
    let ring = Ring::checked(region, queue)?;
    let record = record_length(length);
    ask(record <= u64::from(ring.capacity / 2), BIG, 0)?;
    let needed = ring.skip(ring.reserve, record) + record as u32;
    let used = ring.reserve.wrapping_sub(ring.head);
    ask(used + needed <= ring.capacity, FULL, 0)?;
    let end = ring.reserve.wrapping_add(needed);
    store(region, ring.place + RESERVE, end);
    Ok((ring.reserve, end))
}

fn fill(region: &mut [u8], queue: u32, (start, end): (u32, u32), payload: &[u8]) -> Taken<usize> {
    let ring = Ring::checked(region, queue)?;
    let (from, to) = (start.wrapping_sub(ring.commit), end.wrapping_sub(ring.commit));
    let reserved = from <= to && to <= ring.reserve.wrapping_sub(ring.commit);
    let record = record_length(payload.len() as u64);
    let skip = ring.skip(start, record);
    let exact = reserved && u64::from(skip) + record == u64::from(to - from);
    ask(is_aligned(start) && is_aligned(end) && exact, TURN, 0)?;
    let mut stored = record as usize;
    if skip > 0 {
        store(region, ring.place_of(start), WRAP_MARKER);
        stored += PREFIX as usize;
    }
    let at = ring.place_of(start.wrapping_add(skip));
    let (prefix, rest) = region[at..at + record as usize].split_at_mut(PREFIX as usize);
    let (bytes, padding) = rest.split_at_mut(payload.len());
    prefix.copy_from_slice(&(payload.len() as u32).to_le_bytes());
    bytes.copy_from_slice(payload);
    padding.fill(0);
    Ok(stored)
}

fn commit(region: &mut [u8], queue: u32, (start, end): (u32, u32)) -> Taken<usize> {
    let ring = Ring::checked(region, queue)?;
    let in_turn = start == ring.commit
        && end.wrapping_sub(ring.commit) <= ring.reserve.wrapping_sub(ring.commit);
    ask(is_aligned(start) && is_aligned(end) && in_turn, TURN, 0)?;
    store(region, ring.place + COMMIT, end);
    Ok(CURSOR)
}

fn take(region: &mut [u8], queue: u32) -> Taken<(u64, u64)> {
    let ring = Ring::checked(region, queue)?;
    ask(ring.head != ring.commit, EMPTY, 0)?;
    let mut at = ring.head;
    if u32_at(region, ring.place_of(at)) == WRAP_MARKER {
        let skip = ring.left(at);
        ask(skip < ring.commit.wrapping_sub(at), RECORD, 0)?;
        at = at.wrapping_add(skip);
    }
    // A second marker is a length above all that can be left.
    let place = ring.place_of(at);
    let length = u64::from(u32_at(region, place));
    let record = record_length(length);
    let left = ring.commit.wrapping_sub(at).min(ring.left(at));
    ask(record <= u64::from(left), RECORD, 0)?;
    store(region, ring.place + HEAD, at.wrapping_add(record as u32));
    Ok(((place + PREFIX as usize) as u64, length))
}
