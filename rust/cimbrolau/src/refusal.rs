//! The refusals by name, and answers as `Result`.

use crate::memory::zeros;
use crate::raw::{Answer, Card, Edited};
use std::fmt;

/// What a refusal is about: the names and the numbers of the table of refusals. The numbers have gaps, and later versions may
/// know more of them.
#[non_exhaustive]
#[derive(Clone, Copy, Debug, PartialEq, Eq, Hash, PartialOrd, Ord)]
#[repr(u32)]
pub enum Kind {
    /// The file or the wrapper has under 16 bytes.
    Short = 1,
    /// The letters are wrong.
    Magic = 2,
    /// The format's version is not taken.
    Version = 3,
    /// The endianness tag is not 1.
    Endian = 4,
    /// A reserved number or a known section's flags are not 0.
    Reserved = 5,
    /// The file or the wrapper is too long.
    Size = 6,
    /// A section's header or payload passes the end.
    Cut = 7,
    /// There is a 65th section.
    Many = 8,
    /// A known section comes again, CPU stands beside CPUS, or MMU beside MMUS.
    Twice = 9,
    /// A section's version is not taken.
    SecVer = 10,
    /// A field does not fit, a state has the wrong length, or bytes are left over in a wrapper or a message.
    Shape = 11,
    /// A count or a length is over its bound, or a message is too long.
    Limit = 12,
    /// A key comes again.
    Key = 13,
    /// A text is not UTF-8; the place is the first byte at which none continues, or where the text ends early.
    Text = 14,
    /// A byte or a number is outside its values.
    Value = 15,
    /// The output is shorter than needed; the place is the length needed. From a call that makes its own output: there is
    /// no memory for it.
    Room = 16,
    /// The added key is there already.
    Have = 17,
    /// The message's tag is unknown.
    Tag = 18,
    /// A region of rings is broken; the place is that of its first wrong field.
    Region = 20,
    /// A record is above half the ring's capacity.
    Big = 21,
    /// The bytes in use and those needed exceed the ring's capacity.
    Full = 22,
    /// Nothing is committed.
    Empty = 23,
    /// A committed record runs past the commit cursor or the ring's end, or a skip reaches the commit cursor.
    Record = 24,
    /// The entry to be changed isn't there.
    Absent = 25,
    /// Of many devices at once, a payload lies outside the bytes that hold them.
    Payload = 26,
    /// A number of an untrue card would leave its bounds.
    Card = 28,
    /// Cursors are given out of turn.
    Turn = 29,
}

/// Each kind with its name and what it says: the one list of the numbers that are taken.
const TABLE: &[(Kind, &str, &str)] = &[
    (Kind::Short, "SHORT", "under 16 bytes"),
    (Kind::Magic, "MAGIC", "letters wrong"),
    (Kind::Version, "VERSION", "format version not taken"),
    (Kind::Endian, "ENDIAN", "endianness tag not 1"),
    (Kind::Reserved, "RESERVED", "reserved number or flags not 0"),
    (Kind::Size, "SIZE", "too long"),
    (Kind::Cut, "CUT", "section passes the end"),
    (Kind::Many, "MANY", "65th section"),
    (Kind::Twice, "TWICE", "section again, or one state beside a list of them"),
    (Kind::SecVer, "SECVER", "section version not taken"),
    (Kind::Shape, "SHAPE", "field doesn't fit, or bytes left over"),
    (Kind::Limit, "LIMIT", "count or length over its bound"),
    (Kind::Key, "KEY", "key again"),
    (Kind::Text, "TEXT", "not UTF-8"),
    (Kind::Value, "VALUE", "byte or number outside its values"),
    (Kind::Room, "ROOM", "output shorter than needed"),
    (Kind::Have, "HAVE", "added key is there"),
    (Kind::Tag, "TAG", "unknown tag"),
    (Kind::Region, "REGION", "broken region"),
    (Kind::Big, "BIG", "record above half the capacity"),
    (Kind::Full, "FULL", "bytes in use and those needed exceed the capacity"),
    (Kind::Empty, "EMPTY", "nothing is committed"),
    (Kind::Record, "RECORD", "committed record or skip runs too far"),
    (Kind::Absent, "ABSENT", "entry to be changed isn't there"),
    (Kind::Payload, "PAYLOAD", "payload outside the bytes that hold them"),
    (Kind::Card, "CARD", "number of an untrue card would leave its bounds"),
    (Kind::Turn, "TURN", "cursors given out of turn"),
];

impl Kind {
    /// All kinds, in the order of their numbers.
    ///
    /// ```
    /// use cimbrolau::Kind;
    /// assert_eq!(Kind::all().next(), Some(Kind::Short));
    /// assert_eq!(Kind::all().last(), Some(Kind::Turn));
    /// ```
    pub fn all() -> impl Iterator<Item = Kind> {
        TABLE.iter().map(|(kind, _, _)| *kind)
    }

    /// The kind of a number, if there is one.
    ///
    /// ```
    /// use cimbrolau::Kind;
    /// assert_eq!(Kind::of(13), Some(Kind::Key));
    /// assert_eq!(Kind::of(0), None);
    /// ```
    pub fn of(number: u32) -> Option<Kind> {
        Kind::all().find(|kind| kind.number() == number)
    }

    /// The number of the kind.
    ///
    /// ```
    /// assert_eq!(cimbrolau::Kind::Key.number(), 13);
    /// ```
    pub fn number(self) -> u32 {
        self as u32
    }

    /// The name of the kind, as the refusal card has it.
    ///
    /// ```
    /// assert_eq!(cimbrolau::Kind::SecVer.name(), "SECVER");
    /// ```
    pub fn name(self) -> &'static str {
        self.row().1
    }

    /// What the kind says, in a few words.
    ///
    /// ```
    /// assert_eq!(cimbrolau::Kind::Key.meaning(), "key again");
    /// ```
    pub fn meaning(self) -> &'static str {
        self.row().2
    }

    fn row(self) -> &'static (Kind, &'static str, &'static str) {
        TABLE.iter().find(|(kind, _, _)| *kind == self).expect("every kind is in the table")
    }
}

/// A refusal: what it is about, and the byte of the input at which it stands.
///
/// ```
/// use cimbrolau::{snapshot, Kind, Refusal};
/// let refusal = snapshot::check(b"AEROSNAP").unwrap_err();
/// assert_eq!(refusal, Refusal { kind: Kind::Short, place: 0 });
/// assert_eq!(refusal.to_string(), "1 SHORT at 0: under 16 bytes");
/// ```
#[derive(Clone, Copy, Debug, PartialEq, Eq, Hash)]
pub struct Refusal {
    /// What it is about.
    pub kind: Kind,
    /// Where, counted in bytes from the start of the input; of ROOM the length needed.
    pub place: u64,
}

impl fmt::Display for Refusal {
    fn fmt(&self, f: &mut fmt::Formatter<'_>) -> fmt::Result {
        let Refusal { kind, place } = self;
        write!(f, "{} {} at {}: {}", kind.number(), kind.name(), place, kind.meaning())
    }
}

impl std::error::Error for Refusal {}

/// A refusal of one of many entries, and which it is.
///
/// ```
/// use cimbrolau::{snapshot::NewDevice, Kind, Snapshot};
/// let new = |id| NewDevice { id, version: 1, flags: 0, place: 0, length: 0 };
/// let refused = Snapshot::empty().add_devices(&[new(3), new(14), new(3)], &[]).unwrap_err();
/// assert_eq!((refused.index, refused.refusal.kind), (2, Kind::Have));
/// assert_eq!(refused.to_string(), "entry 2: 17 HAVE at 0: added key is there");
/// ```
#[derive(Clone, Copy, Debug, PartialEq, Eq, Hash)]
pub struct RefusedEntry {
    /// The entry's number, from 0; 0 too where no entry is to blame: for a fault of the file, for CARD, and where there is none.
    pub index: u32,
    /// Why.
    pub refusal: Refusal,
}

impl fmt::Display for RefusedEntry {
    fn fmt(&self, f: &mut fmt::Formatter<'_>) -> fmt::Result {
        write!(f, "entry {}: {}", self.index, self.refusal)
    }
}

impl std::error::Error for RefusedEntry {}

impl From<RefusedEntry> for Refusal {
    fn from(refused: RefusedEntry) -> Refusal {
        refused.refusal
    }
}

/// What a call gives, or why it refused.
pub type Result<T> = std::result::Result<T, Refusal>;

/// An answer as a result: the place of a taken call, which is the bytes written, or the refusal.
///
/// A number that is not in the table can only come from a library of another version than this wrapper, so that
/// nothing it says could be understood.
pub(crate) fn outcome(number: u32, place: u64) -> Result<u64> {
    if number == 0 {
        return Ok(place);
    }
    match Kind::of(number) {
        Some(kind) => Err(Refusal { kind, place }),
        None => panic!("libcimbrolau.a answered {number}, which this wrapper does not know"),
    }
}

/// The whole output of a call that fills a lent buffer, which never needs more than `most` bytes: the call runs once. Where
/// there is no memory for so many, the call is lent nothing, and answers by itself: ROOM with the length that it needs, or
/// a fault of its input.
pub(crate) fn filled(most: usize, call: impl FnOnce(&mut [u8]) -> Answer) -> Result<Vec<u8>> {
    let mut out = zeros(most).unwrap_or_default();
    let written = call(&mut out);
    let length = outcome(written.number, written.place)?;
    out.truncate(length as usize);
    Ok(out)
}

/// The whole output of an edit, and the card that comes back with it.
pub(crate) fn edited(
    most: usize,
    call: impl FnOnce(&mut [u8]) -> Edited,
) -> Result<(Vec<u8>, Card)> {
    let mut card = Card::EMPTY;
    let bytes = filled(most, |out| {
        let given = call(out);
        card = given.card;
        Answer { number: given.number, place: given.place }
    })?;
    Ok((bytes, card))
}

/// Room for so many items, or ROOM with the bytes that they take.
pub(crate) fn room_for<T>(items: usize) -> Result<Vec<T>> {
    let mut room = Vec::new();
    let bytes = (items as u64).saturating_mul(std::mem::size_of::<T>() as u64);
    room.try_reserve_exact(items).map_err(|_| Refusal { kind: Kind::Room, place: bytes })?;
    Ok(room)
}

#[cfg(test)]
mod tests {
    use super::*;

    #[test]
    fn the_table_is_in_the_order_of_the_numbers() {
        assert!(Kind::all().is_sorted_by(|one, next| one.number() < next.number()));
        for kind in Kind::all() {
            assert_eq!(Kind::of(kind.number()), Some(kind));
            assert!(!kind.name().is_empty() && !kind.meaning().is_empty());
        }
        for number in [0, 19, 27, 30, u32::MAX] {
            assert_eq!(Kind::of(number), None);
        }
    }

    #[test]
    fn a_refusal_reads_as_the_card_has_it() {
        let refusal = Refusal { kind: Kind::Key, place: 53 };
        assert_eq!(refusal.to_string(), "13 KEY at 53: key again");
    }

    #[test]
    fn where_there_is_no_memory_the_call_says_what_it_needs() {
        let call = |out: &mut [u8]| match out.len() {
            5.. => Answer { number: 0, place: 5 },
            _ => Answer { number: 16, place: 5 },
        };
        assert_eq!(filled(7, call), Ok(vec![0; 5]));
        assert_eq!(filled(usize::MAX, call), Err(Refusal { kind: Kind::Room, place: 5 }));
        assert_eq!(filled(usize::MAX, |_| Answer { number: 0, place: 0 }), Ok(vec![]));
        let room = room_for::<u64>(usize::MAX);
        assert_eq!(room, Err(Refusal { kind: Kind::Room, place: u64::MAX }));
    }

    #[test]
    #[should_panic(expected = "answered 27")]
    fn an_unknown_number_is_not_taken_for_another() {
        let _ = outcome(27, 0);
    }
}
