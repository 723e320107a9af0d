//! Regions of shared memory, and the rings in them.
//!
//! A region holds up to 64 queues, each a ring of bytes. A producer reserves room for a payload, fills it and commits it; a
//! taker takes what is committed, in the order of the reservations, and reads it where it stands. Whoever has a [`Region`]
//! has its bytes for that time: threads that share one take turns, for example by a `Mutex`.
//!
//! ```
//! use cimbrolau::region::{layout, Plan, Region};
//! use cimbrolau::{Kind, Message};
//!
//! let mut bytes = layout(&[Plan { kind: 0, capacity: 4096 }, Plan { kind: 1, capacity: 4096 }])?;
//! let mut region = Region::open(&mut bytes)?;
//!
//! let mut commands = region.ring(0)?;
//! let message = Message::PortRead { id: 7, port: 0x3F8, size: 1 }.write()?;
//! let pair = commands.reserve(message.len() as u64)?;
//! let pair = commands.fill(pair, &message)?;
//! assert_eq!(commands.take().unwrap_err().kind, Kind::Empty); // not before it is committed
//! commands.commit(pair)?;
//!
//! assert_eq!(Message::read(commands.take()?)?, Message::PortRead { id: 7, port: 0x3F8, size: 1 });
//! # Ok::<(), cimbrolau::Refusal>(())
//! ```

use crate::raw;
use crate::records::u32_at;
use crate::refusal::{outcome, room_for, Kind, Refusal, Result};
use std::fmt;
use std::ops::Range;

/// The most queues that a region has.
pub const MOST_QUEUES: usize = 64;

/// The most bytes that a region has: its length stands in a u32.
pub const MOST_BYTES: u64 = u32::MAX as u64;

/// The bytes of the region's header, of a queue's descriptor and of a ring's header alike: four u32.
const FOUR: usize = 16;

const MAGIC: u32 = u32::from_le_bytes(*b"AIPC");
const VERSION: u32 = 1;

/// Whether the bytes are a region that follows the rules; else its first wrong field.
///
/// ```
/// use cimbrolau::{region, Kind};
/// assert!(region::check(b"AIPC\x01\0\0\0\x10\0\0\0\0\0\0\0").is_ok()); // with no queue
///
/// let refusal = region::check(b"AIPC\x02\0\0\0\x10\0\0\0\0\0\0\0").unwrap_err();
/// assert_eq!((refusal.kind, refusal.place), (Kind::Region, 4));
/// ```
pub fn check(bytes: &[u8]) -> Result<()> {
    let answer = raw::region_check(bytes);
    outcome(answer.number, answer.place)?;
    Ok(())
}

/// A queue that a new region is to have. (See [`layout`] for an example.)
#[derive(Clone, Copy, Debug, PartialEq, Eq, Hash)]
pub struct Plan {
    /// What the queue is for; any number that both sides understand.
    pub kind: u32,
    /// The bytes of its ring's data: a power of two from 64 to 65,536. A record takes at most half of them.
    pub capacity: u32,
}

/// The bytes of a new region with these queues, whose rings are empty and stand behind each other in this order.
///
/// A capacity that no ring may have, or a 65th queue, is refused as the region with it would be.
///
/// ```
/// use cimbrolau::region::{layout, Plan};
/// use cimbrolau::{Kind, Refusal};
/// let bytes = layout(&[Plan { kind: 0, capacity: 256 }])?;
/// assert_eq!(bytes.len(), 16 + 16 + 16 + 256); // header, descriptor, ring header, data
///
/// let refusal = layout(&[Plan { kind: 0, capacity: 300 }]).unwrap_err();
/// assert_eq!(refusal, Refusal { kind: Kind::Region, place: 24 }); // where the capacity would stand
/// # Ok::<(), cimbrolau::Refusal>(())
/// ```
pub fn layout(plans: &[Plan]) -> Result<Vec<u8>> {
    // What the library would refuse is refused before room is made for it.
    if plans.len() > MOST_QUEUES {
        return Err(Refusal { kind: Kind::Region, place: 12 });
    }
    if let Some(queue) = plans.iter().position(|plan| !is_capacity(plan.capacity)) {
        let place = descriptor_place(queue) as u64 + 8;
        return Err(Refusal { kind: Kind::Region, place });
    }
    let behind = descriptor_place(plans.len());
    let rings = plans.iter().map(|plan| FOUR + plan.capacity as usize);
    let total = behind + rings.clone().sum::<usize>();
    let mut bytes = room_for(total)?;
    put(&mut bytes, [MAGIC, VERSION, total as u32, plans.len() as u32]);
    let mut offset = behind;
    for (plan, ring) in plans.iter().zip(rings) {
        put(&mut bytes, [plan.kind, offset as u32, plan.capacity, 0]);
        offset += ring;
    }
    for plan in plans {
        put(&mut bytes, [0, 0, 0, plan.capacity]);
        bytes.resize(bytes.len() + plan.capacity as usize, 0);
    }
    check(&bytes)?;
    Ok(bytes)
}

fn is_capacity(capacity: u32) -> bool {
    capacity.is_power_of_two() && (64..=65_536).contains(&capacity)
}

/// Where the descriptor of a queue stands, or, of as many as there are, where the descriptors end.
fn descriptor_place(queue: usize) -> usize {
    FOUR + FOUR * queue
}

fn put(bytes: &mut Vec<u8>, numbers: [u32; 4]) {
    bytes.extend(numbers.into_iter().flat_map(u32::to_le_bytes));
}

/// A queue as its descriptor has it. (See [`Region::queues`] for an example.)
#[derive(Clone, Copy, Debug, PartialEq, Eq, Hash)]
pub struct Queue {
    /// What the queue is for.
    pub kind: u32,
    /// Where its ring starts in the region.
    pub offset: u32,
    /// The bytes of its ring's data.
    pub capacity: u32,
}

/// The cursors of a ring, signed, as hosts show them. They count bytes, and wrap.
#[derive(Clone, Copy, Debug, PartialEq, Eq, Hash)]
pub struct Cursors {
    /// The taker's cursor.
    pub head: i32,
    /// Up to where bytes are reserved.
    pub reserve: i32,
    /// Up to where bytes are committed.
    pub commit: i32,
}

impl Cursors {
    /// The bytes in use: from head to reserve.
    ///
    /// ```
    /// use cimbrolau::region::Cursors;
    /// let cursors = Cursors { head: -8, reserve: 24, commit: 4 };
    /// assert_eq!((cursors.in_use(), cursors.waiting()), (32, 12));
    /// ```
    pub fn in_use(&self) -> u32 {
        self.reserve.wrapping_sub(self.head) as u32
    }

    /// The bytes that wait for the taker: from head to commit. (See [`Cursors::in_use`] for an example.)
    pub fn waiting(&self) -> u32 {
        self.commit.wrapping_sub(self.head) as u32
    }
}

/// The bytes of a region, lent for as long as this is used, and checked.
///
/// ```
/// use cimbrolau::region::{layout, Plan, Region};
/// let mut bytes = layout(&[Plan { kind: 0, capacity: 64 }])?;
/// let mut region = Region::open(&mut bytes)?;
/// region.ring(0)?.send(b"tank 15")?;
/// assert_eq!(region.ring(0)?.take()?, b"tank 15");
/// # Ok::<(), cimbrolau::Refusal>(())
/// ```
pub struct Region<'a> {
    bytes: &'a mut [u8],
}

/// Its length; the bytes themselves would be many.
impl fmt::Debug for Region<'_> {
    fn fmt(&self, f: &mut fmt::Formatter<'_>) -> fmt::Result {
        f.debug_struct("Region").field("length", &self.bytes.len()).finish()
    }
}

impl<'a> Region<'a> {
    /// Takes bytes that follow the rules; else names the first wrong field.
    ///
    /// ```
    /// use cimbrolau::region::Region;
    /// use cimbrolau::Kind;
    /// let refusal = Region::open(&mut [0; 64]).unwrap_err();
    /// assert_eq!((refusal.kind, refusal.place), (Kind::Region, 0));
    /// ```
    pub fn open(bytes: &'a mut [u8]) -> Result<Region<'a>> {
        check(bytes)?;
        Ok(Region { bytes })
    }

    /// The region's bytes.
    ///
    /// ```
    /// use cimbrolau::region::{layout, Region};
    /// let mut bytes = layout(&[])?;
    /// let region = Region::open(&mut bytes)?;
    /// assert_eq!(region.bytes(), b"AIPC\x01\0\0\0\x10\0\0\0\0\0\0\0");
    /// # Ok::<(), cimbrolau::Refusal>(())
    /// ```
    pub fn bytes(&self) -> &[u8] {
        self.bytes
    }

    /// The region's queues, in the order of their numbers.
    ///
    /// ```
    /// use cimbrolau::region::{layout, Plan, Queue, Region};
    /// let mut bytes = layout(&[Plan { kind: 0, capacity: 64 }, Plan { kind: 4, capacity: 128 }])?;
    /// let region = Region::open(&mut bytes)?;
    /// let expected = [
    ///     Queue { kind: 0, offset: 48, capacity: 64 },
    ///     Queue { kind: 4, offset: 128, capacity: 128 },
    /// ];
    /// assert_eq!(region.queues(), expected);
    /// # Ok::<(), cimbrolau::Refusal>(())
    /// ```
    pub fn queues(&self) -> Vec<Queue> {
        let end = descriptor_place(u32_at(self.bytes, 12) as usize);
        let read = |at: &[u8]| Queue {
            kind: u32_at(at, 0),
            offset: u32_at(at, 4),
            capacity: u32_at(at, 8),
        };
        self.bytes[FOUR..end].chunks_exact(FOUR).map(read).collect()
    }

    /// The cursors of a queue. One that the region lacks is REGION, at its count.
    ///
    /// ```
    /// use cimbrolau::region::{layout, Cursors, Plan, Region};
    /// let mut bytes = layout(&[Plan { kind: 0, capacity: 64 }])?;
    /// let mut region = Region::open(&mut bytes)?;
    /// let pair = region.ring(0)?.reserve(5)?;
    /// assert_eq!(region.report(0)?, Cursors { head: 0, reserve: 12, commit: 0 });
    /// assert_eq!(region.report(1).unwrap_err().place, 12);
    /// # Ok::<(), cimbrolau::Refusal>(())
    /// ```
    pub fn report(&self, queue: u32) -> Result<Cursors> {
        let raw::Cursors { number, place, head, reserve, commit } =
            raw::ring_report(self.bytes, queue);
        outcome(number, place)?;
        Ok(Cursors { head, reserve, commit })
    }

    /// The ring of a queue, and with it the right to write to the region. A queue that the region lacks is REGION, at its
    /// count.
    ///
    /// ```
    /// use cimbrolau::region::{layout, Plan, Region};
    /// let mut bytes = layout(&[Plan { kind: 0, capacity: 64 }])?;
    /// let mut region = Region::open(&mut bytes)?;
    /// assert!(region.ring(0).is_ok());
    /// assert_eq!(region.ring(1).unwrap_err().place, 12);
    /// # Ok::<(), cimbrolau::Refusal>(())
    /// ```
    ///
    /// There is one such right at a time:
    ///
    /// ```compile_fail,E0499
    /// # use cimbrolau::region::{layout, Plan, Region};
    /// # let mut bytes = layout(&[Plan { kind: 0, capacity: 64 }; 2])?;
    /// # let mut region = Region::open(&mut bytes)?;
    /// let mut commands = region.ring(0)?;
    /// let mut events = region.ring(1)?;
    /// commands.send(b"a command")?;
    /// # Ok::<(), cimbrolau::Refusal>(())
    /// ```
    pub fn ring(&mut self, queue: u32) -> Result<Ring<'_>> {
        self.report(queue)?;
        Ok(Ring { region: Region { bytes: self.bytes }, queue })
    }
}

/// Bytes of a ring that are reserved for one payload. Until it is committed the taker gets nothing that was reserved later.
/// (See [`Ring::reserve`] for an example.)
#[must_use = "what is reserved and never committed holds up all behind it"]
#[derive(Debug, PartialEq, Eq, Hash)]
pub struct Reserved(Pair);

/// Bytes of a ring that hold a payload and are to be committed. (See [`Ring::fill`] for an example.)
#[must_use = "what is filled and never committed holds up all behind it"]
#[derive(Debug, PartialEq, Eq, Hash)]
pub struct Filled(Pair);

/// From cursor to cursor, in the ring of a queue.
#[derive(Debug, PartialEq, Eq, Hash)]
struct Pair {
    queue: u32,
    start: u32,
    end: u32,
}

/// The refusal of a call, and the pair that it was given: nothing has been done with it, and it can be given again.
/// With `?` it becomes a [`Refusal`], and the pair is lost.
///
/// ```
/// use cimbrolau::region::{layout, Plan, Region};
/// use cimbrolau::Kind;
/// let mut bytes = layout(&[Plan { kind: 0, capacity: 64 }])?;
/// let mut region = Region::open(&mut bytes)?;
/// let mut ring = region.ring(0)?;
/// let (first, second) = (ring.reserve(4)?, ring.reserve(4)?);
/// let (first, second) = (ring.fill(first, b"tank")?, ring.fill(second, b"pump")?);
///
/// let early = ring.commit(second).unwrap_err();
/// assert_eq!(early.refusal.kind, Kind::Turn);
/// ring.commit(first)?;
/// ring.commit(early.pair)?;
/// # Ok::<(), cimbrolau::Refusal>(())
/// ```
#[derive(Debug, PartialEq, Eq, Hash)]
pub struct Returned<P> {
    /// Why the call refused.
    pub refusal: Refusal,
    /// What it was given.
    pub pair: P,
}

impl<P> From<Returned<P>> for Refusal {
    fn from(returned: Returned<P>) -> Refusal {
        returned.refusal
    }
}

impl<P> fmt::Display for Returned<P> {
    fn fmt(&self, f: &mut fmt::Formatter<'_>) -> fmt::Result {
        self.refusal.fmt(f)
    }
}

impl<P: fmt::Debug> std::error::Error for Returned<P> {}

/// The ring of a queue. Whoever has it may write to the region.
///
/// ```
/// use cimbrolau::region::{layout, Plan, Region};
/// let mut bytes = layout(&[Plan { kind: 0, capacity: 64 }])?;
/// let mut region = Region::open(&mut bytes)?;
/// let mut ring = region.ring(0)?;
/// ring.send(b"tank 15")?;
/// ring.send(b"pump 2")?;
/// assert_eq!(ring.take()?, b"tank 15");
/// assert_eq!(ring.take()?, b"pump 2");
/// # Ok::<(), cimbrolau::Refusal>(())
/// ```
#[derive(Debug)]
pub struct Ring<'r> {
    region: Region<'r>,
    queue: u32,
}

impl Ring<'_> {
    /// The ring's cursors.
    ///
    /// ```
    /// use cimbrolau::region::{layout, Plan, Region};
    /// let mut bytes = layout(&[Plan { kind: 0, capacity: 64 }])?;
    /// let mut region = Region::open(&mut bytes)?;
    /// let mut ring = region.ring(0)?;
    /// ring.send(b"tank 15")?;
    /// assert_eq!(ring.report()?.waiting(), 12);
    /// # Ok::<(), cimbrolau::Refusal>(())
    /// ```
    pub fn report(&self) -> Result<Cursors> {
        self.region.report(self.queue)
    }

    /// Reserves room for a payload of so many bytes. A record that would take more than half the capacity is BIG, one for
    /// which there is no room FULL.
    ///
    /// ```
    /// use cimbrolau::region::{layout, Plan, Region};
    /// use cimbrolau::Kind;
    /// let mut bytes = layout(&[Plan { kind: 0, capacity: 64 }])?;
    /// let mut region = Region::open(&mut bytes)?;
    /// let mut ring = region.ring(0)?;
    /// assert_eq!(ring.reserve(29).unwrap_err().kind, Kind::Big);
    /// let first = ring.reserve(28)?; // with its length 32 bytes, half the capacity
    /// let second = ring.reserve(28)?;
    /// assert_eq!(ring.reserve(0).unwrap_err().kind, Kind::Full);
    /// # Ok::<(), cimbrolau::Refusal>(())
    /// ```
    pub fn reserve(&mut self, length: u64) -> Result<Reserved> {
        let raw::Pair { number, place, start, end } =
            raw::ring_reserve(self.region.bytes, self.queue, length);
        outcome(number, place)?;
        Ok(Reserved(Pair { queue: self.queue, start, end }))
    }

    /// Writes the payload into the bytes that were reserved for it. One that does not need exactly these, or a pair that was
    /// reserved in another queue, is TURN.
    ///
    /// ```
    /// use cimbrolau::region::{layout, Plan, Region};
    /// use cimbrolau::Kind;
    /// let mut bytes = layout(&[Plan { kind: 0, capacity: 64 }])?;
    /// let mut region = Region::open(&mut bytes)?;
    /// let mut ring = region.ring(0)?;
    /// let pair = ring.reserve(7)?;
    /// let wrong = ring.fill(pair, b"another length").unwrap_err();
    /// assert_eq!(wrong.refusal.kind, Kind::Turn);
    /// let pair = ring.fill(wrong.pair, b"tank 15")?;
    /// ring.commit(pair)?;
    /// # Ok::<(), cimbrolau::Refusal>(())
    /// ```
    pub fn fill(
        &mut self,
        pair: Reserved,
        payload: &[u8],
    ) -> std::result::Result<Filled, Returned<Reserved>> {
        let Pair { start, end, .. } = pair.0;
        let filled = self.own(&pair.0).and_then(|()| {
            let answer = raw::ring_fill(self.region.bytes, self.queue, start, end, payload);
            outcome(answer.number, answer.place)
        });
        match filled {
            Ok(_) => Ok(Filled(pair.0)),
            Err(refusal) => Err(Returned { refusal, pair }),
        }
    }

    /// Hands the payload on to the taker. While one that was reserved earlier is not committed, this is TURN; and so is a
    /// pair that was reserved in another queue.
    ///
    /// ```
    /// use cimbrolau::region::{layout, Plan, Region};
    /// let mut bytes = layout(&[Plan { kind: 0, capacity: 64 }])?;
    /// let mut region = Region::open(&mut bytes)?;
    /// let mut ring = region.ring(0)?;
    /// let pair = ring.reserve(7)?;
    /// let pair = ring.fill(pair, b"tank 15")?;
    /// ring.commit(pair)?;
    /// assert_eq!(ring.take()?, b"tank 15");
    /// # Ok::<(), cimbrolau::Refusal>(())
    /// ```
    ///
    /// A pair is committed once:
    ///
    /// ```compile_fail,E0382
    /// # use cimbrolau::region::{layout, Plan, Region};
    /// # let mut bytes = layout(&[Plan { kind: 0, capacity: 64 }])?;
    /// # let mut region = Region::open(&mut bytes)?;
    /// # let mut ring = region.ring(0)?;
    /// # let pair = ring.reserve(7)?;
    /// # let pair = ring.fill(pair, b"tank 15")?;
    /// ring.commit(pair)?;
    /// ring.commit(pair)?;
    /// # Ok::<(), cimbrolau::Refusal>(())
    /// ```
    pub fn commit(&mut self, pair: Filled) -> std::result::Result<(), Returned<Filled>> {
        let Pair { start, end, .. } = pair.0;
        let committed = self.own(&pair.0).and_then(|()| {
            let answer = raw::ring_commit(self.region.bytes, self.queue, start, end);
            outcome(answer.number, answer.place)
        });
        match committed {
            Ok(_) => Ok(()),
            Err(refusal) => Err(Returned { refusal, pair }),
        }
    }

    /// Reserves, fills and commits at once. While another pair is open this is TURN, and nothing is reserved.
    ///
    /// ```
    /// use cimbrolau::region::{layout, Plan, Region};
    /// use cimbrolau::Kind;
    /// let mut bytes = layout(&[Plan { kind: 0, capacity: 64 }])?;
    /// let mut region = Region::open(&mut bytes)?;
    /// let mut ring = region.ring(0)?;
    /// ring.send(b"tank 15")?;
    /// let open = ring.reserve(6)?;
    /// assert_eq!(ring.send(b"pump 2").unwrap_err().kind, Kind::Turn);
    /// assert_eq!(ring.take()?, b"tank 15");
    /// # Ok::<(), cimbrolau::Refusal>(())
    /// ```
    pub fn send(&mut self, payload: &[u8]) -> Result<()> {
        let cursors = self.report()?;
        if cursors.reserve != cursors.commit {
            return Err(Refusal { kind: Kind::Turn, place: 0 });
        }
        let reserved = self.reserve(payload.len() as u64)?;
        let filled = self.fill(reserved, payload)?;
        self.commit(filled)?;
        Ok(())
    }

    /// Takes the next payload that is committed, to be read where it stands. Where there is none it is EMPTY; RECORD if what
    /// was committed is no record.
    ///
    /// ```
    /// use cimbrolau::region::{layout, Plan, Region};
    /// use cimbrolau::Kind;
    /// let mut bytes = layout(&[Plan { kind: 0, capacity: 64 }])?;
    /// let mut region = Region::open(&mut bytes)?;
    /// let mut ring = region.ring(0)?;
    /// ring.send(b"tank 15")?;
    /// assert_eq!(ring.take()?, b"tank 15");
    /// assert_eq!(ring.take().unwrap_err().kind, Kind::Empty);
    /// # Ok::<(), cimbrolau::Refusal>(())
    /// ```
    ///
    /// Nobody writes to the region while the payload is in use:
    ///
    /// ```compile_fail,E0499
    /// # use cimbrolau::region::{layout, Plan, Region};
    /// # let mut bytes = layout(&[Plan { kind: 0, capacity: 64 }])?;
    /// # let mut region = Region::open(&mut bytes)?;
    /// # let mut ring = region.ring(0)?;
    /// # ring.send(b"tank 15")?;
    /// let payload = ring.take()?;
    /// ring.send(b"over it")?;
    /// assert_eq!(payload, b"tank 15");
    /// # Ok::<(), cimbrolau::Refusal>(())
    /// ```
    pub fn take(&mut self) -> Result<&[u8]> {
        let place = self.take_place()?;
        Ok(&self.region.bytes[place])
    }

    /// The same, and where the payload stands in the region's bytes. Nothing keeps it there: a producer may write over it from
    /// the next reservation on.
    ///
    /// ```
    /// use cimbrolau::region::{layout, Plan, Region};
    /// let mut bytes = layout(&[Plan { kind: 0, capacity: 64 }])?;
    /// let mut region = Region::open(&mut bytes)?;
    /// region.ring(0)?.send(b"tank 15")?;
    /// let place = region.ring(0)?.take_place()?;
    /// assert_eq!(place, 52..59); // behind the ring's header at 32 and the record's length at 48
    /// assert_eq!(&region.bytes()[place], b"tank 15");
    /// # Ok::<(), cimbrolau::Refusal>(())
    /// ```
    pub fn take_place(&mut self) -> Result<Range<usize>> {
        let raw::Record { number, place, payload_place, payload_length } =
            raw::ring_take(self.region.bytes, self.queue);
        outcome(number, place)?;
        Ok(payload_place as usize..(payload_place + payload_length) as usize)
    }

    /// Whether a pair is of this queue.
    fn own(&self, pair: &Pair) -> Result<()> {
        if pair.queue == self.queue {
            return Ok(());
        }
        Err(Refusal { kind: Kind::Turn, place: 0 })
    }
}
