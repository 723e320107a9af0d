//! What a call answers: a number, 0 for taken, and a place.

/// The answer of every call. Where the number is 0 the place is the bytes written.
#[repr(C)]
#[derive(Clone, Copy, Debug, PartialEq, Eq)]
pub struct Answer {
    pub number: u32,
    pub place: u64,
}

pub const SHORT: u32 = 1;
pub const MAGIC: u32 = 2;
pub const VERSION: u32 = 3;
pub const ENDIAN: u32 = 4;
pub const RESERVED: u32 = 5;
pub const SIZE: u32 = 6;
pub const CUT: u32 = 7;
pub const MANY: u32 = 8;
pub const TWICE: u32 = 9;
pub const SECVER: u32 = 10;
pub const SHAPE: u32 = 11;
pub const LIMIT: u32 = 12;
pub const KEY: u32 = 13;
pub const TEXT: u32 = 14;
pub const VALUE: u32 = 15;
pub const ROOM: u32 = 16;
pub const HAVE: u32 = 17;
pub const TAG: u32 = 18;
pub const REGION: u32 = 20;
pub const BIG: u32 = 21;
pub const FULL: u32 = 22;
pub const EMPTY: u32 = 23;
pub const RECORD: u32 = 24;
pub const ABSENT: u32 = 25;
pub const PAYLOAD: u32 = 26;
pub const CARD: u32 = 28;
pub const TURN: u32 = 29;

/// Every number that a call answers: 0 for taken, and the refusals. The numbers have gaps.
pub const NUMBERS: [u32; 28] = [
    0, SHORT, MAGIC, VERSION, ENDIAN, RESERVED, SIZE, CUT, MANY, TWICE, SECVER, SHAPE, LIMIT, KEY,
    TEXT, VALUE, ROOM, HAVE, TAG, REGION, BIG, FULL, EMPTY, RECORD, ABSENT, PAYLOAD, CARD, TURN,
];

/// What was read, or the first check that failed.
pub type Taken<T> = Result<T, Answer>;

/// The check `holds`, with the number and the place of its failure.
pub fn ask(holds: bool, number: u32, place: usize) -> Taken<()> {
    if holds {
        Ok(())
    } else {
        Err(Answer { number, place: place as u64 })
    }
}

/// The answer of a call that ended with `written` bytes or with a refusal.
pub fn answered(result: Taken<usize>) -> Answer {
    match result {
        Ok(written) => Answer { number: 0, place: written as u64 },
        Err(refusal) => refusal,
    }
}
