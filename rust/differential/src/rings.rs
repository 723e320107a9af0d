//! Calls on a region, given to the library and to the reference.
//!
//! Each has a copy of the region with a margin on both sides that belongs to nobody; answers and all bytes
//! are compared afterwards. A refused call may not change any, and one that is taken only as many as it says.

use std::fmt::Arguments;

use reference::{Answer, Cursors, Pair, Record};

use crate::compare::{fingerprint, lay_pattern, Answered, Comparison, MARGIN};

/// The calls on regions.
#[derive(Clone, Copy)]
pub struct RingCalls {
    pub check: fn(&[u8]) -> Answer,
    pub report: fn(&[u8], u32) -> Cursors,
    pub reserve: fn(&mut [u8], u32, u64) -> Pair,
    pub fill: fn(&mut [u8], u32, u32, u32, &[u8]) -> Answer,
    pub commit: fn(&mut [u8], u32, u32, u32) -> Answer,
    pub take: fn(&mut [u8], u32) -> Record,
}

/// The reference's.
pub const REFERENCE: RingCalls = RingCalls {
    check: reference::region_check,
    report: reference::ring_report,
    reserve: reference::ring_reserve,
    fill: reference::ring_fill,
    commit: reference::ring_commit,
    take: reference::ring_take,
};

macro_rules! answered {
    ($($answered:ty),*) => {
        $(impl Answered for $answered {
            fn answer(&self) -> Answer {
                Answer { number: self.number, place: self.place }
            }
        })*
    };
}

answered!(Cursors, Pair, Record);

impl Comparison {
    /// Every call that takes a region, on queues that it has and on some that it lacks, none of which
    /// changes the region given; the answer to `region_check`.
    pub fn region(&mut self, region: &[u8]) -> Answer {
        let input = self.inputs + 1;
        let answer = self.region_check(region);
        let count = region.get(12).copied().unwrap_or(0);
        let some = u32::from(self.random.u8() % count.clamp(1, 64));
        let edge = self.random.pick(&[u32::from(count), u32::from(count) + 1, 64, u32::MAX]);
        for queue in [0, some, edge] {
            self.every_call(region, queue);
        }
        self.inputs = input; // one, though several calls had it
        answer
    }

    /// The five calls on one queue, each with numbers that may suit the cursors.
    fn every_call(&mut self, region: &[u8], queue: u32) {
        let Cursors { reserve, commit, .. } = self.ring_report(region, queue);
        let (start, end) = (commit as u32, reserve as u32);
        let length = self.random.pick(&[0, 5, 28, 29, 60]);
        self.ring_reserve(&mut region.to_vec(), queue, length);
        let fitting = end.wrapping_sub(start).saturating_sub(4).min(256);
        self.ring_fill(&mut region.to_vec(), queue, start, end, &vec![0xA5; fitting as usize]);
        self.ring_commit(&mut region.to_vec(), queue, start, end);
        self.ring_take(&mut region.to_vec(), queue);
    }

    pub fn region_check(&mut self, region: &[u8]) -> Answer {
        let ours = self.rings.check;
        let call = format_args!("region_check");
        self.looked(call, region, ours, REFERENCE.check)
    }

    pub fn ring_report(&mut self, region: &[u8], queue: u32) -> Cursors {
        let ours = self.rings.report;
        let call = format_args!("ring_report of {queue}");
        self.looked(
            call,
            region,
            |region| ours(region, queue),
            |region| (REFERENCE.report)(region, queue),
        )
    }

    pub fn ring_reserve(&mut self, region: &mut [u8], queue: u32, length: u64) -> Pair {
        let ours = self.rings.reserve;
        let call = format_args!("ring_reserve in {queue} of {length}");
        self.in_place(
            call,
            region,
            |region| ours(region, queue, length),
            |region| (REFERENCE.reserve)(region, queue, length),
        )
    }

    pub fn ring_fill(
        &mut self,
        region: &mut [u8],
        queue: u32,
        start: u32,
        end: u32,
        payload: &[u8],
    ) -> Answer {
        let ours = self.rings.fill;
        let before = fingerprint(payload);
        let length = payload.len();
        let call = format_args!("ring_fill in {queue} of {length} from {start} to {end}");
        let answer = self.in_place(
            call,
            region,
            |region| ours(region, queue, start, end, payload),
            |region| (REFERENCE.fill)(region, queue, start, end, payload),
        );
        self.unchanged(before, payload);
        answer
    }

    pub fn ring_commit(&mut self, region: &mut [u8], queue: u32, start: u32, end: u32) -> Answer {
        let ours = self.rings.commit;
        let call = format_args!("ring_commit in {queue} from {start} to {end}");
        self.in_place(
            call,
            region,
            |region| ours(region, queue, start, end),
            |region| (REFERENCE.commit)(region, queue, start, end),
        )
    }

    pub fn ring_take(&mut self, region: &mut [u8], queue: u32) -> Record {
        let ours = self.rings.take;
        let call = format_args!("ring_take in {queue}");
        self.in_place(
            call,
            region,
            |region| ours(region, queue),
            |region| (REFERENCE.take)(region, queue),
        )
    }

    /// A call that only looks.
    fn looked<T: Answered>(
        &mut self,
        call: Arguments,
        region: &[u8],
        library: impl Fn(&[u8]) -> T,
        reference: impl Fn(&[u8]) -> T,
    ) -> T {
        self.inputs += 1;
        let before = fingerprint(region);
        let (ours, theirs) = (library(region), reference(region));
        self.unchanged(before, region);
        self.agreed(call, region, ours, theirs)
    }

    /// A call that changes the region.
    fn in_place<T: Answered>(
        &mut self,
        call: Arguments,
        region: &mut [u8],
        library: impl Fn(&mut [u8]) -> T,
        reference: impl Fn(&mut [u8]) -> T,
    ) -> T {
        self.inputs += 1;
        let inside = MARGIN..MARGIN + region.len();
        let salt = self.random.u8();
        for memory in [&mut self.ours, &mut self.theirs] {
            lay_margins(memory, region, salt);
        }
        let theirs = reference(&mut self.theirs[inside.clone()]);
        let ours = library(&mut self.ours[inside.clone()]);
        self.agreed(call, region, ours, theirs);
        if self.ours != self.theirs {
            let differs = |at: &usize| self.ours[*at] != self.theirs[*at];
            let at = (0..self.ours.len()).find(differs).unwrap_or(0) as i64 - MARGIN as i64;
            let what = format!("both {theirs:?}\nfirst difference in the region at {at}");
            self.fail(&call.to_string(), &[region], &what);
        }
        let Answer { number, place } = theirs.answer();
        let may = if number == 0 { place } else { 0 };
        if changed(region, &self.theirs[inside.clone()]) > may {
            self.fail(
                &call.to_string(),
                &[region],
                &format!("both changed more than {may} bytes: {theirs:?}"),
            );
        }
        region.copy_from_slice(&self.theirs[inside]);
        theirs
    }

    /// Both have given the same answer.
    fn agreed<T: Answered>(&mut self, call: Arguments, region: &[u8], ours: T, theirs: T) -> T {
        self.calls += 1;
        self.answers.add(theirs.answer().number);
        if ours != theirs {
            let what = format!("library {ours:?}\nreference {theirs:?}");
            self.fail(&call.to_string(), &[region], &what);
        }
        theirs
    }
}

/// Lays the region between two margins.
fn lay_margins(memory: &mut Vec<u8>, region: &[u8], salt: u8) {
    lay_pattern(memory, 0, salt);
    memory.splice(MARGIN..MARGIN, region.iter().copied());
}

/// How many bytes differ.
fn changed(before: &[u8], after: &[u8]) -> u64 {
    before.iter().zip(after).map(|(before, after)| u64::from(before != after)).sum()
}

/// The comparison itself can fail: each of these is what a faulty library would do.
#[cfg(test)]
mod tests {
    use super::*;
    use crate::regions;

    /// Gives a region with one record of three bytes to a faulty library.
    fn against(planted: impl FnOnce(&mut RingCalls)) {
        let mut run = Comparison::new("planted", 1);
        planted(&mut run.rings);
        let (_, mut region) = regions::one(64, 0, 0, 0);
        run.ring_reserve(&mut region, 0, 3);
        run.ring_fill(&mut region, 0, 0, 8, b"abc");
        run.ring_commit(&mut region, 0, 0, 8);
        run.ring_report(&region, 0);
        run.ring_take(&mut region, 0);
        run.ring_take(&mut region, 0);
    }

    #[test]
    fn the_same_is_taken() {
        against(|calls| *calls = REFERENCE);
        against(|_library| {});
    }

    #[test]
    #[should_panic(expected = "first difference in the region at 55")]
    fn another_byte() {
        against(|calls| {
            calls.fill = |region, queue, start, end, payload| {
                let answer = (REFERENCE.fill)(region, queue, start, end, payload);
                region[55] = 1; // the padding
                answer
            }
        });
    }

    #[test]
    #[should_panic(expected = "first difference in the region at 32")]
    fn a_refusal_that_writes() {
        against(|calls| {
            calls.take = |region, queue| {
                let record = (REFERENCE.take)(region, queue);
                if record.number != 0 {
                    region[32] ^= 4;
                }
                record
            }
        });
    }

    #[test]
    #[should_panic(expected = "library Pair { number: 0, place: 4, start: 0, end: 4 }")]
    fn another_number_beside_the_answer() {
        against(|calls| {
            calls.reserve = |region, queue, length| {
                let pair = (REFERENCE.reserve)(region, queue, length);
                Pair { end: 4, ..pair }
            }
        });
    }

    #[test]
    #[should_panic(expected = "library Answer { number: 0, place: 0 }")]
    fn another_place() {
        against(|calls| {
            calls.commit = |region, queue, start, end| {
                let answer = (REFERENCE.commit)(region, queue, start, end);
                Answer { place: 0, ..answer }
            }
        });
    }

    #[test]
    #[should_panic(expected = "both changed more than 4 bytes")]
    fn both_change_too_much() {
        let five = |region: &mut [u8]| {
            region[..5].fill(0xFF);
            Answer { number: 0, place: 4 }
        };
        Comparison::new("five", 1).in_place(format_args!("five"), &mut [0; 64], five, five);
    }

    #[test]
    #[should_panic(expected = "both changed more than 0 bytes")]
    fn both_refuse_and_write() {
        let write = |region: &mut [u8]| {
            region[0] = 1;
            Answer { number: 20, place: 4 }
        };
        Comparison::new("write", 1).in_place(format_args!("write"), &mut [0; 64], write, write);
    }
}
