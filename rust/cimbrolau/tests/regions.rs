//! Regions and rings through the wrapper's types.

use cimbrolau::region::{self, layout, Cursors, Plan, Region};
use cimbrolau::{raw, Kind, Refusal};

fn refused<T>(kind: Kind, place: u64) -> Result<T, Refusal> {
    Err(Refusal { kind, place })
}

/// One ring of 64 bytes, empty, with its cursors at `at`.
fn ring_at(at: u32) -> Vec<u8> {
    let mut bytes = layout(&[Plan { kind: 7, capacity: 64 }]).unwrap();
    for cursor in [32, 36, 40] {
        bytes[cursor..cursor + 4].copy_from_slice(&at.to_le_bytes());
    }
    bytes
}

#[test]
fn a_layout_of_any_number_of_queues_is_a_region() {
    for count in [0, 1, 2, 63, 64] {
        let plans: Vec<Plan> =
            (0..count).map(|kind| Plan { kind, capacity: 64 << (kind % 11) }).collect();
        let mut bytes = layout(&plans).unwrap();
        let region = Region::open(&mut bytes).unwrap();
        let queues = region.queues();
        let found: Vec<Plan> = queues
            .iter()
            .map(|queue| Plan { kind: queue.kind, capacity: queue.capacity })
            .collect();
        assert_eq!(found, plans);
        for queue in 0..count {
            assert_eq!(region.report(queue), Ok(Cursors { head: 0, reserve: 0, commit: 0 }));
        }
        assert_eq!(region.report(count), refused(Kind::Region, 12));
    }
}

/// What a layout refuses, and where, is what the library refuses in a region that has it.
#[test]
fn a_layout_is_refused_as_its_region_would_be() {
    let good = Plan { kind: 0, capacity: 128 };
    for capacity in [0, 1, 4, 63, 65, 96, 100, 32] {
        let made = layout(&[good, Plan { kind: 1, capacity }]);
        let mut bytes = layout(&[good, good]).unwrap();
        bytes[40..44].copy_from_slice(&capacity.to_le_bytes());
        assert_eq!(region::check(&bytes), refused(Kind::Region, 40), "{capacity}");
        assert_eq!(made, refused(Kind::Region, 40), "{capacity}");
    }
    for capacity in [131_072, 1 << 31, u32::MAX] {
        assert_eq!(layout(&[good, Plan { kind: 1, capacity }]), refused(Kind::Region, 40));
    }
    assert_eq!(layout(&[good; 65]), refused(Kind::Region, 12));
    let mut bytes = layout(&[good; 64]).unwrap();
    bytes[12] = 65;
    assert_eq!(region::check(&bytes), refused(Kind::Region, 12));
}

#[test]
fn a_broken_region_is_not_opened() {
    let mut bytes = ring_at(0);
    bytes[44] = 128; // the ring's own capacity
    assert_eq!(Region::open(&mut bytes).unwrap_err(), Refusal { kind: Kind::Region, place: 44 });
}

#[test]
fn messages_pass_the_end_of_the_ring_and_the_end_of_the_cursors() {
    let mut bytes = ring_at(u32::MAX - 23);
    let mut region = Region::open(&mut bytes).unwrap();
    let mut ring = region.ring(0).unwrap();
    ring.send(b"twelve bytes").unwrap();
    ring.send(b"behind a skip").unwrap();
    let cursors = ring.report().unwrap();
    assert_eq!(cursors, Cursors { head: -24, reserve: 20, commit: 20 });
    assert_eq!((cursors.in_use(), cursors.waiting()), (44, 44));
    assert_eq!(ring.take(), Ok(&b"twelve bytes"[..]));
    assert_eq!(ring.take(), Ok(&b"behind a skip"[..]));
    assert_eq!(ring.take(), refused(Kind::Empty, 0));
    assert_eq!(ring.report(), Ok(Cursors { head: 20, reserve: 20, commit: 20 }));
}

#[test]
fn a_pair_of_another_queue_comes_back() {
    let mut bytes = layout(&[Plan { kind: 0, capacity: 64 }; 2]).unwrap();
    let mut region = Region::open(&mut bytes).unwrap();
    // Both rings are alike, so that the library itself could not tell the pairs apart.
    let zero = region.ring(0).unwrap().reserve(4).unwrap();
    let one = region.ring(1).unwrap().reserve(4).unwrap();
    let back = region.ring(1).unwrap().fill(zero, b"zero").unwrap_err();
    assert_eq!(back.refusal, Refusal { kind: Kind::Turn, place: 0 });
    let zero = region.ring(0).unwrap().fill(back.pair, b"zero").unwrap();
    let one = region.ring(1).unwrap().fill(one, b"one.").unwrap();
    let back = region.ring(1).unwrap().commit(zero).unwrap_err();
    assert_eq!(back.to_string(), "29 TURN at 0: cursors given out of turn");
    region.ring(0).unwrap().commit(back.pair).unwrap();
    region.ring(1).unwrap().commit(one).unwrap();
    assert_eq!(region.ring(0).unwrap().take(), Ok(&b"zero"[..]));
    assert_eq!(region.ring(1).unwrap().take(), Ok(&b"one."[..]));
}

#[test]
fn what_is_committed_without_being_filled_is_no_record() {
    let mut bytes = ring_at(0);
    let pair = raw::ring_reserve(&mut bytes, 0, 8);
    bytes[48..52].copy_from_slice(&9u32.to_le_bytes()); // 4 + 12 bytes, and 12 are reserved
    assert_eq!(raw::ring_commit(&mut bytes, 0, pair.start, pair.end).number, 0);
    let mut region = Region::open(&mut bytes).unwrap();
    assert_eq!(region.ring(0).unwrap().take(), refused(Kind::Record, 0));
}

#[test]
fn a_refused_send_reserves_nothing() {
    let mut bytes = ring_at(4);
    let before = bytes.clone();
    let mut region = Region::open(&mut bytes).unwrap();
    assert_eq!(region.ring(0).unwrap().send(&[1; 29]), refused(Kind::Big, 0));
    assert_eq!(region.bytes(), before);
    region.ring(0).unwrap().send(&[1; 28]).unwrap();
    let half = region.bytes().to_vec();
    assert_eq!(region.ring(0).unwrap().send(&[2; 28]), refused(Kind::Full, 0)); // a skip of 28 too
    assert_eq!(region.bytes(), half);
}
