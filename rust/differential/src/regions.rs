//! Regions, made number by number; the places of the numbers are kept for `damage`.

use crate::make::{Field, Made};
use crate::random::Random;

/// The bytes of the region's header, of a descriptor and of a ring's header.
pub const FOUR: usize = 16;

/// What stands in the place of a length where the ring's end is skipped.
pub const MARKER: u32 = u32::MAX;

/// A queue: where its ring stands, its capacity and its cursors.
#[derive(Clone, Copy, Debug)]
pub struct Queue {
    pub kind: u32,
    pub offset: u32,
    pub capacity: u32,
    pub head: u32,
    pub reserve: u32,
    pub commit: u32,
}

impl Queue {
    /// The queue of a ring at a place, empty, with its cursors at `at`.
    pub fn empty(offset: u32, capacity: u32, at: u32) -> Self {
        Queue { kind: 0, offset, capacity, head: at, reserve: at, commit: at }
    }

    /// The same with so many bytes committed and so many more reserved.
    pub fn holding(self, committed: u32, pending: u32) -> Self {
        let commit = self.head.wrapping_add(committed);
        Queue { commit, reserve: commit.wrapping_add(pending), ..self }
    }

    /// Where the ring ends.
    pub fn end(&self) -> usize {
        self.offset as usize + FOUR + self.capacity as usize
    }

    /// A cursor's place in the region.
    pub fn place_of(&self, cursor: u32) -> usize {
        self.offset as usize + FOUR + (cursor % self.capacity) as usize
    }
}

/// Where the descriptors of so many queues end.
pub fn behind(queues: usize) -> usize {
    FOUR + FOUR * queues
}

/// A region of these queues with so many bytes; a ring header that is not inside is left out.
pub fn region(queues: &[Queue], length: usize) -> Made {
    let mut made = Made::default();
    made.number(4, u64::from(u32::from_le_bytes(*b"AIPC"))).number(4, 1);
    made.number(4, length as u64).number(4, queues.len() as u64);
    for queue in queues {
        made.number(4, queue.kind.into()).number(4, queue.offset.into());
        made.number(4, queue.capacity.into()).number(4, 0);
    }
    made.bytes.resize(length.max(made.bytes.len()), 0);
    for queue in queues {
        let numbers = [queue.head, queue.reserve, queue.commit, queue.capacity];
        for (at, number) in numbers.into_iter().enumerate() {
            let place = queue.offset as usize + 4 * at;
            if place + 4 <= length {
                made.bytes[place..place + 4].copy_from_slice(&number.to_le_bytes());
                made.fields.push(Field { place, width: 4 });
            }
        }
    }
    made
}

/// Empty rings of these capacities behind each other, with their cursors at `at`.
pub fn row(capacities: &[u32], at: u32) -> Vec<Queue> {
    let mut offset = behind(capacities.len()) as u32;
    let next = |capacity: &u32| {
        let queue = Queue::empty(offset, *capacity, at);
        offset += FOUR as u32 + capacity;
        queue
    };
    capacities.iter().map(next).collect()
}

/// The region of one ring, with no byte behind it.
pub fn one(capacity: u32, at: u32, committed: u32, pending: u32) -> (Queue, Vec<u8>) {
    let queue = Queue::empty(behind(1) as u32, capacity, at).holding(committed, pending);
    (queue, region(&[queue], queue.end()).bytes)
}

/// Cursors at the edges: of the ring, of what is positive when signed, and of 32 bits.
const CURSORS: [u32; 12] = [
    0,
    4,
    60,
    64,
    0x7FFF_FFC0,
    0x7FFF_FFFC,
    0x8000_0000,
    0xFFFF_0000,
    0xFFFF_FF80,
    0xFFFF_FFC0,
    0xFFFF_FFF0,
    0xFFFF_FFFC,
];

pub fn cursor(random: &mut Random) -> u32 {
    if random.once_in(3) {
        random.u32() & !3
    } else {
        random.pick(&CURSORS)
    }
}

/// A number of bytes up to `most`, a multiple of 4.
pub fn aligned(random: &mut Random, most: u32) -> u32 {
    4 * random.below(most as usize / 4 + 1) as u32
}

/// A valid region: some queues whose rings stand in any order, with bytes of nobody between them, and hold
/// anything.
pub fn any(random: &mut Random) -> Made {
    let count = random.pick(&[0, 1, 1, 2, 2, 3, 5]);
    let mut order: Vec<usize> = (0..count).collect();
    random.shuffle(&mut order);
    let mut queues = vec![Queue::empty(0, 64, 0); count];
    let mut end = behind(count) as u32 + aligned(random, 8);
    for at in order {
        let capacity = random.pick(&[64, 64, 64, 128, 256]);
        let queue = Queue::empty(end, capacity, cursor(random));
        let committed = aligned(random, capacity);
        let pending = aligned(random, capacity - committed);
        queues[at] = Queue { kind: random.u32(), ..queue }.holding(committed, pending);
        end = queue.end() as u32 + random.pick(&[0, 0, 4, 12]);
    }
    let mut made = region(&queues, end as usize + random.below(5));
    for queue in queues {
        records(random, &queue, &mut made);
    }
    made
}

/// Lays numbers that may be lengths and markers over a ring's data.
pub fn records(random: &mut Random, queue: &Queue, made: &mut Made) {
    for place in (queue.offset as usize + FOUR..queue.end()).step_by(4) {
        let number = length_or_marker(random, queue.capacity);
        made.bytes[place..place + 4].copy_from_slice(&number.to_le_bytes());
    }
    let head = Field { place: queue.place_of(queue.head), width: 4 };
    made.fields.push(head);
}

/// A number to stand before a payload: mostly small, sometimes a marker.
pub fn length_or_marker(random: &mut Random, capacity: u32) -> u32 {
    let any = random.u32();
    let near = capacity - 8 + random.below(12) as u32;
    random.pick(&[0, 1, 4, 5, 8, 12, 20, any % 32, any % 64, near, MARKER, MARKER, MARKER - 1, any])
}
