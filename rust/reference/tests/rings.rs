//! Regions and rings: each rule by an example, with its bytes and places written out.

use reference::*;

const REGION: u32 = 20;
const BIG: u32 = 21;
const FULL: u32 = 22;
const EMPTY: u32 = 23;
const RECORD: u32 = 24;
const TURN: u32 = 29;

/// The ring of a region with one queue of 64 bytes, and the first byte of its data.
const RING: usize = 32;
const DATA: usize = 48;

fn answer(number: u32, place: u64) -> Answer {
    Answer { number, place }
}

/// A region of these numbers, four bytes each, and zeros up to its length.
fn numbers(numbers: &[u32], length: usize) -> Vec<u8> {
    let mut region: Vec<u8> = numbers.iter().flat_map(|number| number.to_le_bytes()).collect();
    region.resize(length, 0);
    region
}

/// One queue of 64 bytes with these cursors: 32 + 16 + 64 bytes.
fn one(head: u32, reserve: u32, commit: u32) -> Vec<u8> {
    let header = [0x4350_4941, 1, 112, 1];
    let descriptor = [7, 32, 64, 0];
    numbers(&[header, descriptor, [head, reserve, commit, 64]].concat(), 112)
}

/// An empty ring of 64 bytes whose cursors stand at `at`.
fn empty(at: u32) -> Vec<u8> {
    one(at, at, at)
}

/// Two queues of 64 bytes behind each other: 48 + 80 + 80 bytes.
fn two() -> Vec<u8> {
    let header = [0x4350_4941, 1, 208, 2];
    let mut region = numbers(&[header, [0, 48, 64, 0], [1, 128, 64, 0]].concat(), 208);
    set(&mut region, 60, 64);
    set(&mut region, 140, 64);
    region
}

fn set(region: &mut [u8], at: usize, number: u32) {
    region[at..at + 4].copy_from_slice(&number.to_le_bytes());
}

fn number_at(region: &[u8], at: usize) -> u32 {
    u32::from_le_bytes(region[at..at + 4].try_into().unwrap())
}

/// The answer to a region in which one number is changed.
fn with(mut region: Vec<u8>, at: usize, number: u32) -> Answer {
    set(&mut region, at, number);
    region_check(&region)
}

/// Reserves, fills and commits.
fn send(region: &mut [u8], payload: &[u8]) -> (u32, u32) {
    let pair = ring_reserve(region, 0, payload.len() as u64);
    assert_eq!((pair.number, pair.place), (0, 4));
    assert_eq!(ring_fill(region, 0, pair.start, pair.end, payload).number, 0);
    assert_eq!(ring_commit(region, 0, pair.start, pair.end), answer(0, 4));
    (pair.start, pair.end)
}

/// Takes a payload.
fn taken(region: &mut [u8]) -> Vec<u8> {
    let record = ring_take(region, 0);
    assert_eq!((record.number, record.place), (0, 4));
    let start = record.payload_place as usize;
    region[start..start + record.payload_length as usize].to_vec()
}

// ---- the region

#[test]
fn a_header_in_the_order_of_its_fields() {
    assert_eq!(region_check(&two()), answer(0, 0));
    assert_eq!(region_check(&two()[..15]), answer(REGION, 0));
    assert_eq!(region_check(&[]), answer(REGION, 0));
    let mut region = two();
    for (at, wrong) in [(12, 65), (8, 207), (4, 2), (0, 0x4349_5041)] {
        set(&mut region, at, wrong);
        assert_eq!(region_check(&region), answer(REGION, at as u64));
    }
    // The total is the buffer's length, neither less nor more.
    assert_eq!(region_check(&two()[..207]), answer(REGION, 8));
    assert_eq!(region_check(&[two(), vec![0]].concat()), answer(REGION, 8));
}

#[test]
fn no_queue_one_queue_and_too_many() {
    let none = numbers(&[0x4350_4941, 1, 16, 0], 16);
    assert_eq!(region_check(&none), answer(0, 0));
    let lacking = numbers(&[0x4350_4941, 1, 16, 1], 16);
    assert_eq!(region_check(&lacking), answer(REGION, 12));
    assert_eq!(region_check(&empty(0)), answer(0, 0));
    // 64 descriptors stand in 1040 bytes; 65 are too many though they would have room.
    assert_eq!(region_check(&numbers(&[0x4350_4941, 1, 1040, 64], 1040)), answer(REGION, 20));
    assert_eq!(region_check(&numbers(&[0x4350_4941, 1, 2000, 65], 2000)), answer(REGION, 12));
    assert_eq!(region_check(&numbers(&[0x4350_4941, 1, 1039, 64], 1039)), answer(REGION, 12));
}

#[test]
fn an_asked_queue_that_is_lacking_is_the_count() {
    let mut region = two();
    set(&mut region, 20, 1); // the first descriptor's offset is wrong too
    for queue in [2, 3, u32::MAX] {
        let lacking = answer(REGION, 12);
        let report = ring_report(&region, queue);
        assert_eq!(report, Cursors { number: REGION, place: 12, ..Cursors::default() });
        assert_eq!(ring_reserve(&mut region, queue, 0).place, 12);
        assert_eq!(ring_fill(&mut region, queue, 0, 4, b""), lacking);
        assert_eq!(ring_commit(&mut region, queue, 0, 0), lacking);
        assert_eq!(ring_take(&mut region, queue).place, 12);
    }
    assert_eq!(ring_report(&region, 1).place, 20);
    set(&mut region, 8, 0);
    assert_eq!(ring_report(&region, 2).place, 8);
}

#[test]
fn descriptors_in_the_order_of_their_fields() {
    // Offset: a multiple of 4, behind the descriptors, ring within the region.
    assert_eq!(with(two(), 20, 50), answer(REGION, 20));
    assert_eq!(with(two(), 20, 44), answer(REGION, 20));
    assert_eq!(with(two(), 36, 132), answer(REGION, 36));
    assert_eq!(with(two(), 36, u32::MAX - 3), answer(REGION, 36));
    // A capacity with which the ring runs out is charged to the offset.
    assert_eq!(with(two(), 40, 128), answer(REGION, 36));
    assert_eq!(with(two(), 40, u32::MAX), answer(REGION, 36));
    // Else to the capacity: no power of two, or below 64.
    assert_eq!(with(two(), 24, 60), answer(REGION, 24));
    assert_eq!(with(two(), 24, 32), answer(REGION, 24));
    assert_eq!(with(two(), 24, 0), answer(REGION, 24));
    assert_eq!(with(two(), 28, 1), answer(REGION, 28));
    assert_eq!(with(two(), 32, u32::MAX), answer(0, 0)); // the kind is free
                                                         // All descriptors come before all ring headers, and the first before the second.
    let mut region = two();
    set(&mut region, 48, 1);
    assert_eq!(with(region.clone(), 44, 1), answer(REGION, 44));
    set(&mut region, 28, 1);
    assert_eq!(with(region, 36, 1), answer(REGION, 28));
}

#[test]
fn capacities_from_64_to_65536() {
    for capacity in [64, 128, 32_768, 65_536, 131_072] {
        let total = 48 + capacity;
        let ring = [0, 0, 0, capacity];
        let header = [0x4350_4941, 1, total, 1, 0, 32, capacity, 0];
        let region = numbers(&[&header[..], &ring].concat(), total as usize);
        let expected = if capacity > 65_536 { answer(REGION, 24) } else { answer(0, 0) };
        assert_eq!(region_check(&region), expected);
    }
}

#[test]
fn rings_touch_and_do_not_meet() {
    // The later descriptor is charged, whichever of the rings stands first.
    assert_eq!(with(two(), 36, 124), answer(REGION, 36));
    assert_eq!(with(two(), 20, 52), answer(REGION, 36));
    assert_eq!(with(two(), 36, 48), answer(REGION, 36));
    // The rings the other way round.
    let mut region = two();
    set(&mut region, 20, 128);
    set(&mut region, 36, 48);
    assert_eq!(region_check(&region), answer(0, 0));
    assert_eq!(with(region.clone(), 36, 52), answer(REGION, 36));
    // A ring with no capacity, inside an earlier one, meets it.
    set(&mut region, 36, 160);
    assert_eq!(with(region, 40, 0), answer(REGION, 36));
}

#[test]
fn ring_headers_in_the_order_of_their_fields() {
    let mut region = one(0, 32, 16);
    for (at, wrong) in [(12, 32), (8, 18), (4, 34), (0, 1)] {
        let expected = answer(REGION, (RING + at) as u64);
        assert_eq!(with(one(0, 32, 16), RING + at, wrong), expected);
        // Beside those behind it that are wrong already.
        set(&mut region, RING + at, wrong);
        assert_eq!(region_check(&region), expected);
    }
    // The first ring comes before the second.
    let mut region = two();
    set(&mut region, 128, 1);
    assert_eq!(region_check(&region), answer(REGION, 128));
    set(&mut region, 60, 128);
    assert_eq!(region_check(&region), answer(REGION, 60));
}

#[test]
fn cursors_that_stand_too_far_apart_are_head() {
    let far = answer(REGION, RING as u64);
    assert_eq!(region_check(&one(0, 64, 32)), answer(0, 0));
    assert_eq!(region_check(&one(0, 68, 32)), far);
    assert_eq!(region_check(&one(4, 0, 0)), far);
    // The capacity is the descriptor's, and this comes before a reserve that is no multiple of 4.
    assert_eq!(region_check(&one(0, 66, 64)), far);
    assert_eq!(region_check(&one(0, 62, 0)), answer(REGION, 36));
    // Two distances whose sum would wrap to a small number: commit half way round.
    assert_eq!(region_check(&one(0, 0, 0x8000_0000)), far);
    assert_eq!(region_check(&one(0, 0, 4)), far);
    // Distances wrap.
    assert_eq!(region_check(&one(u32::MAX - 3, 60, 28)), answer(0, 0));
    assert_eq!(region_check(&one(u32::MAX - 3, 64, 28)), far);
}

#[test]
fn a_report_is_signed() {
    let region = one(u32::MAX - 3, 16, 0);
    let cursors = Cursors { head: -4, reserve: 16, commit: 0, ..Cursors::default() };
    assert_eq!(ring_report(&region, 0), cursors);
    let low = ring_report(&empty(0x8000_0000), 0);
    assert_eq!((low.number, low.head), (0, i32::MIN));
}

// ---- the calls

#[test]
fn a_record_is_prefix_payload_and_padding() {
    let mut region = empty(0);
    region[DATA..].fill(0xEE);
    let pair = ring_reserve(&mut region, 0, 5);
    assert_eq!(pair, Pair { number: 0, place: 4, start: 0, end: 12 });
    assert_eq!(number_at(&region, RING + 4), 12);
    assert_eq!(ring_take(&mut region, 0).number, EMPTY);
    assert_eq!(ring_fill(&mut region, 0, 0, 12, b"level"), answer(0, 12));
    assert_eq!(region[DATA..DATA + 13], *b"\x05\0\0\0level\0\0\0\xEE");
    assert_eq!(ring_take(&mut region, 0).number, EMPTY);
    assert_eq!(ring_commit(&mut region, 0, 0, 12), answer(0, 4));
    let record = ring_take(&mut region, 0);
    assert_eq!(record, Record { number: 0, place: 4, payload_place: 52, payload_length: 5 });
    assert_eq!(number_at(&region, RING), 12);
    assert_eq!(ring_take(&mut region, 0), Record { number: EMPTY, ..Record::default() });
}

#[test]
fn a_skip_has_a_marker_and_keeps_the_other_bytes() {
    let mut region = empty(48);
    region[DATA..].fill(0xEE);
    let (start, end) = (48, 84);
    let pair = ring_reserve(&mut region, 0, 16);
    assert_eq!((pair.start, pair.end), (start, end)); // a skip of 16, a record of 20
    assert_eq!(ring_fill(&mut region, 0, start, end, &[7; 16]), answer(0, 24));
    assert_eq!(region[DATA + 48..], [[0xFF; 4], [0xEE; 4], [0xEE; 4], [0xEE; 4]].concat()[..]);
    assert_eq!(number_at(&region, DATA), 16);
    assert_eq!(
        region[DATA + 4..DATA + 24],
        [[7u8; 4], [7; 4], [7; 4], [7; 4], [0xEE; 4]].concat()[..]
    );
    assert_eq!(ring_commit(&mut region, 0, start, end).number, 0);
    assert_eq!(taken(&mut region), [7; 16]);
    assert_eq!(number_at(&region, RING), 84);
    // A record that just fits takes no skip.
    let mut region = empty(48);
    assert_eq!(ring_reserve(&mut region, 0, 12).end, 64);
}

#[test]
fn cursors_wrap() {
    let mut region = empty(u32::MAX - 15);
    assert_eq!(send(&mut region, &[1; 12]), (u32::MAX - 15, 0));
    assert_eq!(send(&mut region, &[2; 8]), (0, 12));
    let report = ring_report(&region, 0);
    assert_eq!((report.head, report.reserve, report.commit), (-16, 12, 12));
    assert_eq!(taken(&mut region), [1; 12]);
    assert_eq!(taken(&mut region), [2; 8]);
    let mut region = empty(u32::MAX - 7);
    assert_eq!(send(&mut region, &[3; 8]), (u32::MAX - 7, 12)); // behind a skip of 8
    assert_eq!(taken(&mut region), [3; 8]);
}

#[test]
fn half_the_capacity_is_taken_and_more_is_big() {
    assert_eq!(ring_reserve(&mut empty(0), 0, 28).end, 32);
    for length in [29, 60, 64, u64::from(u32::MAX), 1 << 32, u64::MAX - 7, u64::MAX] {
        let mut region = empty(0);
        assert_eq!(
            ring_reserve(&mut region, 0, length),
            Pair { number: BIG, ..Pair::default() },
            "{length}"
        );
        assert_eq!(region, empty(0));
    }
    // BIG comes before FULL.
    assert_eq!(ring_reserve(&mut one(0, 64, 0), 0, 29).number, BIG);
    assert_eq!(ring_reserve(&mut one(0, 64, 0), 0, 28).number, FULL);
}

#[test]
fn full_counts_what_is_in_use_and_the_skip() {
    // 40 in use, 24 left to the end: 24 fit, 28 would skip the 24.
    assert_eq!(ring_reserve(&mut one(0, 40, 0), 0, 20).end, 64);
    assert_eq!(ring_reserve(&mut one(0, 40, 0), 0, 21).number, FULL);
    // 16 in use and 16 skipped leave 32.
    assert_eq!(ring_reserve(&mut one(32, 48, 32), 0, 28).end, 96);
    assert_eq!(ring_reserve(&mut one(28, 48, 28), 0, 28).number, FULL);
    // In use is from head to reserve, committed or not.
    assert_eq!(ring_reserve(&mut one(0, 64, 64), 0, 0).number, FULL);
    assert_eq!(ring_reserve(&mut one(0, 60, 60), 0, 0).end, 64);
}

#[test]
fn a_fill_out_of_turn() {
    // Reserved: 8 to 32.
    let region = one(0, 32, 8);
    let turn = |start, end, length: usize| {
        let mut lent = region.clone();
        let answer = ring_fill(&mut lent, 0, start, end, &vec![9; length]);
        assert!(answer.number == 0 || lent == region);
        (answer.number, answer.place)
    };
    assert_eq!(turn(8, 20, 5), (0, 12));
    assert_eq!(turn(8, 20, 8), (0, 12));
    assert_eq!(turn(8, 20, 4), (TURN, 0));
    assert_eq!(turn(8, 20, 9), (TURN, 0));
    assert_eq!(turn(20, 32, 8), (0, 12));
    assert_eq!(turn(8, 32, 20), (0, 24)); // two pairs given as one
    assert_eq!(turn(20, 36, 12), (TURN, 0)); // past the reserve cursor
    assert_eq!(turn(4, 16, 8), (TURN, 0)); // before the commit cursor
    assert_eq!(turn(10, 22, 8), (TURN, 0)); // no multiples of 4
    assert_eq!(turn(20, 8, 0), (TURN, 0));
    assert_eq!(turn(8, 8, 0), (TURN, 0));
    assert_eq!(turn(u32::MAX - 3, 8, 8), (TURN, 0));
}

#[test]
fn a_pair_is_filled_again_until_it_is_committed() {
    let mut region = empty(0);
    let pair = ring_reserve(&mut region, 0, 8);
    assert_eq!(ring_fill(&mut region, 0, pair.start, pair.end, b"first..."), answer(0, 12));
    assert_eq!(ring_fill(&mut region, 0, pair.start, pair.end, b"later"), answer(0, 12));
    assert_eq!(ring_commit(&mut region, 0, pair.start, pair.end), answer(0, 4));
    assert_eq!(ring_fill(&mut region, 0, pair.start, pair.end, b"late"), answer(TURN, 0));
    assert_eq!(taken(&mut region), b"later");
}

#[test]
fn a_commit_out_of_turn() {
    let region = one(0, 32, 8);
    let turn = |start, end| {
        let mut lent = region.clone();
        let answer = ring_commit(&mut lent, 0, start, end);
        assert!(answer.number != 0 || number_at(&lent, RING + 8) == end);
        assert!(answer.number == 0 || lent == region);
        (answer.number, answer.place)
    };
    assert_eq!(turn(8, 20), (0, 4));
    assert_eq!(turn(8, 32), (0, 4)); // several pairs
    assert_eq!(turn(8, 8), (0, 4)); // none
    assert_eq!(turn(20, 32), (TURN, 0));
    assert_eq!(turn(8, 36), (TURN, 0));
    assert_eq!(turn(8, 4), (TURN, 0));
    assert_eq!(turn(8, 18), (TURN, 0));
    assert_eq!(turn(4, 20), (TURN, 0));
}

#[test]
fn records_that_cannot_be_taken() {
    let broken = |region: &[u8]| {
        let mut lent = region.to_vec();
        let record = ring_take(&mut lent, 0);
        assert!(record.number == 0 || lent == region);
        record.number
    };
    // 8 bytes are committed: a record of 4 bytes is taken, one of 5 runs past commit.
    let mut region = one(0, 64, 8);
    for (length, number) in [(0, 0), (4, 0), (5, RECORD), (u32::MAX - 1, RECORD)] {
        set(&mut region, DATA, length);
        assert_eq!(broken(&region), number, "{length}");
    }
    // A record that would pass the ring's end, though all of it is committed.
    let mut region = one(48, 88, 88);
    set(&mut region, DATA + 48, 12);
    assert_eq!(broken(&region), 0);
    set(&mut region, DATA + 48, 13);
    assert_eq!(broken(&region), RECORD);
    // A marker: the next record stands at the ring's start; a second marker is none.
    set(&mut region, DATA + 48, u32::MAX);
    set(&mut region, DATA, 20);
    assert_eq!(broken(&region), 0);
    set(&mut region, DATA, 21);
    assert_eq!(broken(&region), RECORD);
    set(&mut region, DATA, u32::MAX);
    assert_eq!(broken(&region), RECORD);
    // A skip that reaches commit, and one that would pass it.
    for commit in [64, 60, 52] {
        let mut region = one(48, 88, commit);
        set(&mut region, DATA + 48, u32::MAX);
        assert_eq!(broken(&region), RECORD, "{commit}");
    }
    // A marker at the ring's start in a full ring.
    let mut region = one(0, 64, 64);
    set(&mut region, DATA, u32::MAX);
    assert_eq!(broken(&region), RECORD);
}

#[test]
fn padding_is_not_looked_at() {
    let mut region = one(0, 8, 8);
    region[DATA..DATA + 8].copy_from_slice(b"\x01\0\0\0x\xFF\xFF\xFF");
    assert_eq!(taken(&mut region), b"x");
}

#[test]
fn a_stop_leaves_none_of_a_message_or_all() {
    for stop in 0..3 {
        let mut region = empty(u32::MAX - 11);
        send(&mut region, b"before");
        let pair = ring_reserve(&mut region, 0, 20);
        if stop >= 1 {
            ring_fill(&mut region, 0, pair.start, pair.end, &[0xFF; 20]);
        }
        if stop >= 2 {
            ring_commit(&mut region, 0, pair.start, pair.end);
        }
        assert_eq!(taken(&mut region), b"before");
        if stop == 2 {
            assert_eq!(taken(&mut region), [0xFF; 20]);
        }
        assert_eq!(ring_take(&mut region, 0).number, EMPTY);
    }
}
