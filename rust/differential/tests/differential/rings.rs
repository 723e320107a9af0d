//! Regions and rings: every way in which a small region can be wrong, every use of a small ring, and lives of
//! rings beside a plain queue of messages.

use std::collections::VecDeque;

use differential::compare::Comparison;
use differential::damage::{extremes as extremes_of, set, several};
use differential::make::Made;
use differential::random::Random;
use differential::regions::{self, aligned, Queue, FOUR, MARKER};
use reference::answer::{BIG, EMPTY, FULL, RECORD, REGION, TURN};
use reference::{Answer, Cursors};

/// The answer has this number and place.
#[track_caller]
fn expect(answer: Answer, number: u32, place: usize) {
    assert_eq!((answer.number, answer.place), (number, place as u64));
}

fn store(region: &mut [u8], at: usize, number: u32) {
    region[at..at + 4].copy_from_slice(&number.to_le_bytes());
}

// ---- regions

/// Three queues of 64 bytes whose rings do not stand in the order of their descriptors, with bytes of nobody
/// before and behind them; one is empty, one in use, one full.
fn small(random: &mut Random) -> Made {
    let offsets = [164, 68, 244];
    let [empty, used, full] =
        offsets.map(|offset| Queue::empty(offset, 64, regions::cursor(random)));
    let queues = [empty, used.holding(24, 20), full.holding(64, 0)];
    let mut made = regions::region(&queues, 328);
    for queue in &queues {
        regions::records(random, queue, &mut made);
    }
    made
}

pub fn valid(run: &mut Comparison) {
    for _ in 0..20_000 {
        let made = regions::any(&mut run.random);
        expect(run.region(&made.bytes), 0, 0);
    }
}

/// Every value of every byte of the header, the descriptors and the ring headers.
pub fn every_byte(run: &mut Comparison) {
    let mut region = small(&mut run.random).bytes;
    for place in (0..64).chain(68..84).chain(164..180).chain(244..260) {
        for change in 1..=255 {
            region[place] ^= change;
            run.region(&region);
            region[place] ^= change;
        }
    }
}

/// Every length, with the bytes that were cut off still standing behind the end: once with the total that
/// the region had, once with the length it has now.
pub fn every_cut(run: &mut Comparison) {
    for _ in 0..4 {
        let mut region = small(&mut run.random).bytes;
        for length in 0..region.len() {
            run.region(&region[..length]);
        }
        for length in (12..region.len()).rev() {
            store(&mut region, 8, length as u32);
            run.region(&region[..length]);
        }
    }
}

/// Every number of a region at its extremes, and those near the places of the other numbers.
pub fn extremes(run: &mut Comparison) {
    for _ in 0..3 {
        let made = small(&mut run.random);
        for field in &made.fields {
            let old = u32::from_le_bytes(made.bytes[field.place..][..4].try_into().unwrap());
            let near = (0..=160).map(|at| u64::from(old.wrapping_add(at).wrapping_sub(80)));
            for value in extremes_of(*field, made.bytes.len()).into_iter().chain(near) {
                let mut region = made.bytes.clone();
                set(&mut region, *field, value);
                run.region(&region);
            }
        }
    }
}

/// Any two numbers of a region wrong at once, each in several ways: which of them is named?
pub fn pairs(run: &mut Comparison) {
    let made = small(&mut run.random);
    let values = [0, 2, 66, 128, 0x8000_0000, u64::from(u32::MAX) - 3, u64::MAX];
    for (at, one) in made.fields.iter().enumerate() {
        for other in &made.fields[at + 1..] {
            for first in values {
                for second in values {
                    let mut region = made.bytes.clone();
                    set(&mut region, *one, first);
                    set(&mut region, *other, second);
                    run.region_check(&region);
                }
            }
        }
    }
}

pub fn damaged(run: &mut Comparison) {
    for _ in 0..60_000 {
        let made = regions::any(&mut run.random);
        let faults = 1 + run.random.below(3);
        let region = several(&mut run.random, &made, faults);
        run.region(&region);
    }
}

/// No queue, one, 64, and 65; the last of them and the one behind it asked for; every capacity.
pub fn counts(run: &mut Comparison) {
    for count in [0, 1, 2, 63, 64, 65, 66] {
        for at in [0, 0xFFFF_FFE0] {
            let queues = regions::row(&vec![64; count], at);
            let length = regions::behind(count) + 80 * count;
            let region = regions::region(&queues, length).bytes;
            let expected = if count > 64 { (REGION, 12) } else { (0, 0) };
            expect(run.region(&region), expected.0, expected.1);
            for queue in 0..=count as u32 + 1 {
                let report = run.ring_report(&region, queue);
                let there = count <= 64 && (queue as usize) < count;
                assert_eq!(report.number, if there { 0 } else { REGION });
                assert_eq!(report.head, if there { at as i32 } else { 0 });
                assert_eq!(run.ring_reserve(&mut region.clone(), queue, 3).number, report.number);
            }
        }
        // The descriptors alone: their end is the region's, or passes it by some bytes.
        for length in regions::behind(count).saturating_sub(20)..=regions::behind(count) + 4 {
            let queues = vec![Queue::empty(16, 64, 0); count];
            let made = regions::region(&queues, length);
            run.region(&made.bytes[..length]);
        }
    }
    for power in 0..32 {
        for capacity in [1 << power, (1 << power) + 4, (1u32 << power).wrapping_sub(4)] {
            let length = regions::behind(1) + FOUR + capacity.min(131_072) as usize;
            let queue = Queue { capacity, ..Queue::empty(32, 64, 0) };
            let mut made = regions::region(&[queue], length);
            made.bytes.resize(length, 0);
            let answer = run.region(&made.bytes);
            let good = capacity == 1 << power && (6..=16).contains(&power);
            let place = if capacity > 131_072 { 20 } else { 24 };
            expect(answer, if good { 0 } else { REGION }, if good { 0 } else { place });
        }
    }
}

/// Rings at random offsets of a small region: some touch, some meet, some run out. What they should answer
/// is found byte by byte.
pub fn meetings(run: &mut Comparison) {
    for _ in 0..60_000 {
        let count = 1 + run.random.below(5);
        let length = regions::behind(count) + 80 * (1 + run.random.below(count + 2));
        let mut queues = vec![];
        for at in 0..count {
            let slot = regions::behind(count) + 80 * run.random.below(count + 2);
            let moved = run.random.pick(&[0, 0, 0, 0, 0, 0, 4, 16, 76, 1, 2]);
            let near = run.random.once_in(200);
            let offset = if near { u32::MAX - 3 - 4 * at as u32 } else { (slot + moved) as u32 };
            let capacity = run.random.pick(&[64, 64, 64, 64, 64, 64, 128, 32, 0]);
            queues.push(Queue { capacity, ..Queue::empty(offset, 64, 0) });
        }
        // Each ring's bytes belong to it; a ring that would write into another's header is laid all the same.
        let region = regions::region(&queues, length).bytes;
        let answer = run.region(&region[..length]);
        if let Some(place) = first_wrong_descriptor(&queues, length) {
            expect(answer, REGION, place);
        } else {
            expect(answer, 0, 0);
        }
    }
    // Sums that wrap at 2^32 to an end that would be inside.
    for capacity in [64u32, 1024, 65_536] {
        for near in 0..20 {
            let offset = 0u32.wrapping_sub(FOUR as u32 + capacity) + 4 * near;
            let length = regions::behind(1) + FOUR + capacity as usize;
            let made = regions::region(&[Queue::empty(offset, capacity, 0)], length);
            expect(run.region(&made.bytes), REGION, 20);
        }
    }
}

/// The first wrong number of the descriptors: who has each byte of the region?
fn first_wrong_descriptor(queues: &[Queue], length: usize) -> Option<usize> {
    let mut owned = vec![false; length];
    owned[..regions::behind(queues.len())].fill(true);
    for (at, queue) in queues.iter().enumerate() {
        let place = regions::behind(at);
        let inside = owned.get_mut(queue.offset as usize..queue.end());
        match inside {
            Some(bytes) if queue.offset % 4 == 0 && !bytes.contains(&true) => bytes.fill(true),
            _ => return Some(place + 4),
        }
        if queue.capacity < 64 {
            return Some(place + 8);
        }
    }
    None
}

/// Cursors at all distances about the capacity, and at distances whose sum wraps.
pub fn distances(run: &mut Comparison) {
    for capacity in [64u32, 128, 65_536] {
        for at in [0, 4, 0x8000_0000, 0xFFFF_FFFC, 0u32.wrapping_sub(capacity)] {
            let about = [0, 4, capacity / 2, capacity - 4, capacity, capacity + 4];
            let far = [0x7FFF_FFFC, 0x8000_0000, 0x8000_0004, u32::MAX - capacity, 0xFFFF_FFFC, 2];
            for committed in about.into_iter().chain(far) {
                for pending in about.into_iter().chain(far) {
                    let (queue, region) = regions::one(capacity, at, committed, pending);
                    let far = u64::from(committed) + u64::from(pending) > u64::from(capacity);
                    let expected = if far {
                        (REGION, 32)
                    } else if queue.reserve % 4 != 0 {
                        (REGION, 36)
                    } else if queue.commit % 4 != 0 {
                        (REGION, 40)
                    } else {
                        (0, 0)
                    };
                    expect(run.region_check(&region), expected.0, expected.1);
                    if capacity == 64 {
                        run.region(&region);
                    }
                }
            }
        }
    }
}

// ---- every use of a small ring

/// Lengths at which a reservation may go wrong: about the numbers given, 2^32 and 2^64.
fn lengths_about(edges: &[u64]) -> Vec<u64> {
    let edges = edges.iter().chain(&[1 << 31, 1 << 32, 1 << 33, 0]);
    edges.flat_map(|edge| (0..24).map(|at| edge.wrapping_add(at).wrapping_sub(12))).collect()
}

/// Every length in a ring of 64 bytes at every position and with every number of bytes in use; then the
/// larger capacities at their edges.
pub fn reservations(run: &mut Comparison) {
    let lengths: Vec<u64> = (0..=70).chain(lengths_about(&[])).collect();
    for at in (0..64).step_by(4) {
        for used in (0..=64).step_by(4) {
            let committed = aligned(&mut run.random, used);
            let head = run.random.pick(&[0, 0x7FFF_FFC0, 0u32.wrapping_sub(64)]) + at;
            let (queue, region) = regions::one(64, head, committed, used - committed);
            for length in &lengths {
                reserved(run, &queue, &region, *length);
            }
        }
    }
    for power in 7..=16 {
        let capacity = 1u32 << power;
        let half = u64::from(capacity) / 2;
        for _ in 0..if power > 12 { 4 } else { 40 } {
            let used = aligned(&mut run.random, capacity);
            let committed = aligned(&mut run.random, used);
            let head = regions::cursor(&mut run.random);
            let (queue, region) = regions::one(capacity, head, committed, used - committed);
            let free = u64::from(capacity - used);
            let left = u64::from(capacity - queue.reserve % capacity);
            for length in lengths_about(&[half, free, left, free.saturating_sub(left)]) {
                reserved(run, &queue, &region, length);
            }
        }
    }
}

/// Reserves, and says once more what should be answered.
fn reserved(run: &mut Comparison, queue: &Queue, region: &[u8], length: u64) {
    let pair = run.ring_reserve(&mut region.to_vec(), 0, length);
    let record = u128::from(length).div_ceil(4) * 4 + 4;
    let left = u128::from(queue.capacity - queue.reserve % queue.capacity);
    let needed = if record > left { left + record } else { record };
    let used = u128::from(queue.reserve.wrapping_sub(queue.head));
    let expected = if 2 * record > u128::from(queue.capacity) {
        (BIG, 0, 0, 0)
    } else if used + needed > u128::from(queue.capacity) {
        (FULL, 0, 0, 0)
    } else {
        (0, 4, queue.reserve, queue.reserve.wrapping_add(needed as u32))
    };
    assert_eq!((pair.number, pair.place, pair.start, pair.end), expected, "{queue:?}, {length}");
}

/// Cursors about the reserved bytes, in steps of 2, so that every other is no multiple of 4; and far ones.
fn cursors_about(queue: &Queue) -> Vec<u32> {
    let pending = queue.reserve.wrapping_sub(queue.commit);
    let about =
        (0..pending + 18).step_by(2).map(|at| queue.commit.wrapping_add(at).wrapping_sub(8));
    about.chain([queue.head, queue.commit ^ 0x8000_0000]).collect()
}

/// In a ring of 64 bytes, every pair about the reserved bytes with every payload that may suit it.
pub fn fills(run: &mut Comparison) {
    for at in (0..64).step_by(4) {
        for pending in (0..=64).step_by(4) {
            let before = aligned(&mut run.random, 64 - pending);
            let commit = run.random.pick(&[0, 0x7FFF_FFC0, 0u32.wrapping_sub(64)]) + at;
            let (queue, mut region) =
                regions::one(64, commit.wrapping_sub(before), before, pending);
            region[48..].fill(0xEE);
            for start in cursors_about(&queue) {
                for end in cursors_about(&queue) {
                    fill_pair(run, &region, start, end);
                }
            }
        }
    }
}

/// Fills a pair with the payloads that just need its bytes, with a skip and without, and some that do not.
fn fill_pair(run: &mut Comparison, region: &[u8], start: u32, end: u32) {
    let room = end.wrapping_sub(start);
    let behind_skip = room.wrapping_sub(64 - start % 64);
    let payload = [0xA5; 80];
    let odd = run.random.below(70) as u32;
    for most in [room.wrapping_sub(4), behind_skip.wrapping_sub(4), odd] {
        let less = run.random.below(5) as u32;
        for length in [most, most.wrapping_sub(less)] {
            if let Some(payload) = payload.get(..length as usize) {
                run.ring_fill(&mut region.to_vec(), 0, start, end, payload);
            }
        }
    }
}

/// In a ring of 64 bytes, every pair about the reserved bytes.
pub fn commits(run: &mut Comparison) {
    for at in (0..64).step_by(4) {
        for pending in (0..=64).step_by(4) {
            let before = aligned(&mut run.random, 64 - pending);
            let commit = run.random.pick(&[0, 0x7FFF_FFC0, 0u32.wrapping_sub(64)]) + at;
            let (queue, region) = regions::one(64, commit.wrapping_sub(before), before, pending);
            for start in cursors_about(&queue) {
                for end in cursors_about(&queue) {
                    let answer = run.ring_commit(&mut region.clone(), 0, start, end);
                    let ends = (0..=pending).step_by(4).any(|at| end == commit.wrapping_add(at));
                    let good = start == commit && ends;
                    expect(answer, if good { 0 } else { TURN }, if good { 4 } else { 0 });
                }
            }
        }
    }
}

/// In a ring of 64 bytes, every length of a record at every position and with every number of bytes
/// committed; behind a marker every length at the ring's start, a second marker among them.
pub fn takes(run: &mut Comparison) {
    let lengths: Vec<u32> = (0..=70)
        .chain([1 << 16, 1 << 31, (1 << 31) - 4, MARKER - 7, MARKER - 3, MARKER - 1, MARKER])
        .collect();
    for at in (0..64).step_by(4) {
        for committed in (0..=64).step_by(4) {
            let head = run.random.pick(&[0, 0x7FFF_FFC0, 0u32.wrapping_sub(64)]) + at;
            let pending = aligned(&mut run.random, 64 - committed);
            let (queue, mut region) = regions::one(64, head, committed, pending);
            for length in &lengths {
                store(&mut region, queue.place_of(head), *length);
                taken(run, &queue, &region);
                if *length == MARKER && at > 0 {
                    for behind in &lengths {
                        store(&mut region, queue.place_of(0), *behind);
                        taken(run, &queue, &region);
                    }
                }
            }
        }
    }
}

/// Takes, and says once more what should be answered.
fn taken(run: &mut Comparison, queue: &Queue, region: &[u8]) {
    let mut after = region.to_vec();
    let record = run.ring_take(&mut after, 0);
    let committed = queue.commit.wrapping_sub(queue.head);
    let number = |cursor: u32| {
        let place = queue.place_of(cursor);
        u32::from_le_bytes(region[place..place + 4].try_into().unwrap())
    };
    let left = 64 - queue.head % 64;
    let skip = if number(queue.head) == MARKER { left } else { 0 };
    let start = queue.head.wrapping_add(skip);
    let length = number(start);
    let needed = 4 + u64::from(length).div_ceil(4) * 4;
    let room = committed.saturating_sub(skip).min(64 - start % 64);
    let expected = if committed == 0 {
        (EMPTY, 0, 0, 0)
    } else if needed > u64::from(room) {
        (RECORD, 0, 0, 0)
    } else {
        (0, 4, queue.place_of(start) as u64 + 4, u64::from(length))
    };
    let given = (record.number, record.place, record.payload_place, record.payload_length);
    assert_eq!(given, expected, "{queue:?}");
    let head = if given.0 == 0 { start.wrapping_add(needed as u32) } else { queue.head };
    assert_eq!(after[32..36], head.to_le_bytes(), "{queue:?}");
}

// ---- lives

/// Bytes that a producer has reserved and not yet committed.
struct Open {
    start: u32,
    end: u32,
    payload: Vec<u8>,
    filled: bool,
}

/// A ring as its users see it: what they have open, and what waits for the taker. Cursors are counted
/// without wrapping.
struct Life {
    queue: Queue,
    head: u64,
    reserve: u64,
    open: VecDeque<Open>,
    waiting: VecDeque<(Vec<u8>, u64)>,
    passed: u64,
}

/// Producers that each hand on their pair as answered and fill it before its commit, and may stop after any
/// store; a taker who gets what was committed, whole and in order, and nothing else.
pub fn lives(run: &mut Comparison) {
    let mut passed = 0;
    for life in 0..900 {
        let many = 1 + run.random.below(3);
        let largest = if life % 100 == 0 { 11 } else { 5 };
        let capacities: Vec<u32> = (0..many).map(|_| 64 << run.random.below(largest)).collect();
        let at = regions::cursor(&mut run.random);
        let queues = regions::row(&capacities, at);
        let end = queues.last().expect("a queue").end();
        let mut region = regions::region(&queues, end).bytes;
        let mut lives: Vec<Life> = queues.into_iter().map(Life::new).collect();
        for _ in 0..300 {
            let number = run.random.below(many);
            lives[number].step(run, &mut region, number as u32);
        }
        for (number, life) in lives.iter_mut().enumerate() {
            life.ends(run, &mut region, number as u32);
            passed += life.passed;
        }
    }
    assert!(passed > 20_000, "only {passed} messages were passed");
}

impl Life {
    fn new(queue: Queue) -> Self {
        let at = u64::from(queue.head);
        Life {
            queue,
            head: at,
            reserve: at,
            open: VecDeque::new(),
            waiting: VecDeque::new(),
            passed: 0,
        }
    }

    fn step(&mut self, run: &mut Comparison, region: &mut [u8], number: u32) {
        match run.random.below(16) {
            0..4 => self.reserve(run, region, number),
            4..8 => self.fill(run, region, number),
            8 => self.stop(run, region),
            9..12 => self.commit(run, region, number),
            12..15 => self.take(run, region, number),
            _ => self.look(run, region, number),
        }
    }

    fn reserve(&mut self, run: &mut Comparison, region: &mut [u8], number: u32) {
        let half = self.queue.capacity as usize / 2;
        let most = run.random.pick(&[8, 16, half, half + 8]);
        let length = run.random.below(most);
        let capacity = u64::from(self.queue.capacity);
        let record = 4 + (length as u64).div_ceil(4) * 4;
        let left = capacity - self.reserve % capacity;
        let end = self.reserve + record + if record > left { left } else { 0 };
        let pair = run.ring_reserve(region, number, length as u64);
        if 2 * record > capacity {
            assert_eq!(pair.number, BIG);
        } else if end - self.head > capacity {
            assert_eq!(pair.number, FULL);
        } else {
            assert_eq!((pair.number, pair.start, pair.end), (0, self.reserve as u32, end as u32));
            self.reserve = end;
            let payload = run.random.bytes(length);
            let (start, end) = (pair.start, pair.end);
            self.open.push_back(Open { start, end, payload, filled: false });
        }
    }

    /// Fills one of the open pairs, often the first.
    fn fill(&mut self, run: &mut Comparison, region: &mut [u8], number: u32) {
        if self.open.is_empty() {
            return;
        }
        let first = run.random.once_in(2);
        let at = if first { 0 } else { run.random.below(self.open.len()) };
        let open = &mut self.open[at];
        let answer = run.ring_fill(region, number, open.start, open.end, &open.payload);
        assert_eq!(answer.number, 0, "a pair as it was answered");
        open.filled = true;
    }

    /// A producer stops in its fill, and leaves any bytes within its pair. It may fill it anew.
    fn stop(&mut self, run: &mut Comparison, region: &mut [u8]) {
        if self.open.is_empty() {
            return;
        }
        let at = run.random.below(self.open.len());
        let open = &mut self.open[at];
        for step in 0..open.end.wrapping_sub(open.start) / 4 {
            let place = self.queue.place_of(open.start.wrapping_add(4 * step));
            let left = regions::length_or_marker(&mut run.random, self.queue.capacity);
            store(region, place, left);
        }
        open.filled = false;
    }

    /// Commits the first pair if it is filled; another one is not yet in turn.
    fn commit(&mut self, run: &mut Comparison, region: &mut [u8], number: u32) {
        if self.open.is_empty() {
            return;
        }
        let early = run.random.once_in(4);
        let at = if early { run.random.below(self.open.len()) } else { 0 };
        let Open { start, end, filled, .. } = self.open[at];
        if at > 0 {
            expect(run.ring_commit(region, number, start, end), TURN, 0);
        } else if filled {
            expect(run.ring_commit(region, number, start, end), 0, 4);
            let done = self.open.pop_front().expect("it is there");
            self.waiting.push_back((done.payload, u64::from(end.wrapping_sub(start))));
        }
    }

    fn take(&mut self, run: &mut Comparison, region: &mut [u8], number: u32) {
        let record = run.ring_take(region, number);
        match self.waiting.pop_front() {
            None => assert_eq!((record.number, record.place), (EMPTY, 0)),
            Some((payload, bytes)) => {
                assert_eq!((record.number, record.place), (0, 4));
                let start = record.payload_place as usize;
                let taken = &region[start..start + record.payload_length as usize];
                assert!(taken == payload, "a message that is not the next, or not whole");
                self.head += bytes;
                self.passed += 1;
            }
        }
    }

    fn look(&mut self, run: &mut Comparison, region: &[u8], number: u32) {
        expect(run.region_check(region), 0, 0);
        let waiting: u64 = self.waiting.iter().map(|(_, bytes)| bytes).sum();
        let expected = Cursors {
            number: 0,
            place: 0,
            head: self.head as i32,
            reserve: self.reserve as i32,
            commit: (self.head + waiting) as i32,
        };
        assert_eq!(run.ring_report(region, number), expected);
    }

    /// Whatever producers left open, all that was committed is taken, and then nothing.
    fn ends(&mut self, run: &mut Comparison, region: &mut [u8], number: u32) {
        while !self.waiting.is_empty() {
            self.take(run, region, number);
        }
        self.take(run, region, number);
        self.look(run, region, number);
    }
}

/// Calls in no order, with pairs that were answered and pairs that were not, over bytes of any kind.
pub fn wild_lives(run: &mut Comparison) {
    for life in 0..3_000 {
        let capacity = 64 << run.random.below(if life % 200 == 0 { 11 } else { 3 });
        let at = regions::cursor(&mut run.random);
        let queues = regions::row(&[capacity, 64], at);
        let mut made = regions::region(&queues, queues[1].end());
        regions::records(&mut run.random, &queues[0], &mut made);
        let mut region = made.bytes;
        for _ in 0..60 {
            wild_step(run, &queues[0], &mut region);
        }
    }
}

fn wild_step(run: &mut Comparison, queue: &Queue, region: &mut [u8]) {
    let Cursors { reserve, commit, .. } = reference::ring_report(region, 0);
    let (reserve, commit) = (reserve as u32, commit as u32);
    let pending = reserve.wrapping_sub(commit);
    let to = commit.wrapping_add(aligned(&mut run.random, pending));
    match run.random.below(7) {
        0 | 1 => {
            let length = run.random.below(queue.capacity as usize / 2 + 4);
            run.ring_reserve(region, 0, length as u64);
        }
        2 => {
            let start = run.random.pick(&[commit, commit, to, queue.head]);
            let end = run.random.pick(&[reserve, reserve, to, to.wrapping_add(2)]);
            let room = end.wrapping_sub(start);
            let length = room.saturating_sub(4).min(2 * queue.capacity) as usize;
            let less = run.random.below(5).min(length);
            run.ring_fill(region, 0, start, end, &vec![0xA5; length - less]);
        }
        3 => {
            let end = run.random.pick(&[reserve, to, to, reserve.wrapping_add(4)]);
            run.ring_commit(region, 0, commit, end);
        }
        4 => {
            let place = queue.place_of(aligned(&mut run.random, queue.capacity));
            let number = regions::length_or_marker(&mut run.random, queue.capacity);
            store(region, place, number);
        }
        _ => {
            run.ring_take(region, 0);
        }
    }
}
