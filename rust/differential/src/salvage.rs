//! Salvage by the library and by the reference, and what has to hold of what they answer.

use reference::answer::CUT;
use reference::Salvaged;

use crate::compare::{fingerprint, lay_pattern, pattern_stands, Comparison, MARGIN};
use crate::library;
use crate::record::aside;

/// The call: a file, and what is lent for the file that is kept and for the records.
pub type Salvage = fn(&[u8], &mut [u8], &mut [u8]) -> Salvaged;

/// Bytes in a record.
pub const LOSS: usize = 24;

/// A loss: where it starts, how many bytes it has, and why.
#[derive(Clone, Copy, Debug, PartialEq, Eq)]
pub struct Loss {
    pub start: usize,
    pub bytes: usize,
    pub number: u32,
}

/// More losses than this are compared, and not asked about one by one.
const FEW: usize = 6;

/// Among the calls on any file, one that is longer is not salvaged.
const LONGEST: usize = 4 << 20;

impl Comparison {
    /// Salvage of a file with outputs of several lengths, and all that has to hold of it; what the reference kept and lost,
    /// none if it refuses the file.
    pub fn salvaged(&mut self, file: &[u8]) -> Option<(Vec<u8>, Vec<Loss>)> {
        self.inputs += 1;
        let before = fingerprint(file);
        self.salvage_somewhere(file);
        let (kept, losses) = kept_and_lost(file)?;
        if let Err(what) = aside(|| holds(file, &kept, &losses)) {
            self.fail("salvage", &[file], &what);
        }
        self.unchanged(before, file);
        Some((kept, losses))
    }

    /// The same with what both answer alone.
    pub(crate) fn salvage_short(&mut self, file: &[u8]) {
        if file.len() <= LONGEST {
            self.salvage_somewhere(file);
        }
    }

    /// Salvage with outputs whose lengths are chosen about what the reference needs.
    fn salvage_somewhere(&mut self, file: &[u8]) {
        let needed = match kept_and_lost(file) {
            Some((kept, losses)) => [kept.len(), LOSS * losses.len()],
            // A file that is refused has room for a copy of itself, so that a hasty writer shows.
            None => [file.len().min(1 << 16), LOSS],
        };
        let [room, records] = needed.map(|needed| self.length_about(needed));
        self.salvage_in(file, room, records);
    }

    /// Mostly exactly so many bytes, or some more; now and then one too few, or none.
    fn length_about(&mut self, needed: usize) -> usize {
        let more = 1 + self.random.below(40);
        match (self.exact, self.random.below(32)) {
            (true, _) | (_, 4..=20) => needed,
            (_, 0) => 0,
            (_, 1) => self.random.below(needed + 1),
            (_, 2 | 3) => needed.saturating_sub(1),
            _ => needed + more,
        }
    }

    /// Salvage with outputs of so many bytes: the answer, and all of those bytes.
    pub fn salvage_in(&mut self, file: &[u8], room: usize, records: usize) -> Salvaged {
        let salt = self.random.u8();
        let mut memories: [Vec<u8>; 4] = Default::default();
        for (memory, length) in memories.iter_mut().zip([room, room, records, records]) {
            lay_pattern(memory, length, salt);
        }
        let [ours, theirs, our_records, their_records] = &mut memories;
        let (out, losses) = (MARGIN..MARGIN + room, MARGIN..MARGIN + records);
        let given = (self.salvage)(file, &mut ours[out.clone()], &mut our_records[losses.clone()]);
        let wanted = reference::salvage(file, &mut theirs[out], &mut their_records[losses]);
        let told = format!("library {given:?}\nreference {wanted:?}\nlent {room} and {records}");
        if ours != theirs || our_records != their_records {
            let which = if ours != theirs { "the files" } else { "the records" };
            self.fail("salvage", &[file], &format!("{told}: {which} differ"));
        }
        let kept = if wanted.number == 0 { wanted.place as usize } else { 0 };
        let lost = LOSS * wanted.losses as usize;
        if !pattern_stands(theirs, kept, salt) || !pattern_stands(their_records, lost, salt) {
            self.fail("salvage", &[file], &format!("{told}: both wrote too much"));
        }
        self.answers.add(wanted.number);
        self.same("salvage", &[file], given, wanted)
    }
}

/// What the reference keeps of a file and what it loses, with room enough for both; none if it refuses the file.
pub fn kept_and_lost(file: &[u8]) -> Option<(Vec<u8>, Vec<Loss>)> {
    // Each loss but the last has a section's header.
    let mut kept = vec![0; file.len()];
    let mut records = vec![0; LOSS * (file.len() / 16 + 1)];
    let answer = reference::salvage(file, &mut kept, &mut records);
    if answer.number != 0 {
        return None;
    }
    kept.truncate(answer.place as usize);
    records.truncate(LOSS * answer.losses as usize);
    Some((kept, records.chunks_exact(LOSS).map(Loss::of).collect()))
}

impl Loss {
    pub(crate) fn of(record: &[u8]) -> Loss {
        let number = |at: usize| u64::from_le_bytes(record[at..at + 8].try_into().expect("8"));
        // The number's upper half is the u32 0 behind it.
        let why = u32::try_from(number(16)).expect("0 in the last four bytes");
        Loss { start: number(0) as usize, bytes: number(8) as usize, number: why }
    }

    /// Its record.
    pub(crate) fn record(&self) -> [u8; LOSS] {
        let numbers = [self.start as u64, self.bytes as u64, self.number.into()];
        numbers.map(u64::to_le_bytes).as_flattened().try_into().expect("three numbers")
    }
}

/// What has to hold of what is kept and lost, asked of the library's other calls: what is kept is accepted and canonical;
/// the file without its losses is the kept sections in order, whose canonical form it is; nothing is lost exactly if the
/// file is accepted; and each loss has the number that `check` gives behind the sections kept before it.
fn holds(file: &[u8], kept: &[u8], losses: &[Loss]) -> Result<(), String> {
    let mut rest = Vec::with_capacity(file.len());
    let mut at = 0;
    for (number, loss) in losses.iter().enumerate() {
        if loss.start < at || loss.bytes == 0 {
            return Err(format!("{loss:?} starts before {at}, or is empty"));
        }
        rest.extend_from_slice(&file[at..loss.start]);
        at = loss.start + loss.bytes;
        if losses.len() <= FEW {
            let with = [&rest, &file[loss.start..at]].concat();
            let says = library::check(&with).number;
            let is_last = number + 1 == losses.len();
            // Whether it fits decides before the number of sections does.
            if says != loss.number && !(loss.number == CUT && is_last) {
                return Err(format!("{loss:?}, and check says {says}"));
            }
        }
    }
    rest.extend_from_slice(&file[at..]);
    let is_accepted = |file: &[u8]| library::check(file).number == 0;
    if !is_accepted(&rest) || !is_accepted(kept) {
        return Err("what is kept is refused".into());
    }
    if canonical(&rest) != kept || canonical(kept) != kept {
        return Err("what is kept is not its canonical form".into());
    }
    match losses.is_empty() == is_accepted(file) {
        true => Ok(()),
        false => Err(format!("{} losses, and check says otherwise", losses.len())),
    }
}

/// The canonical form of a file that is accepted.
fn canonical(file: &[u8]) -> Vec<u8> {
    let mut out = vec![0; file.len()];
    let length = library::canonical(file, &mut out).place as usize;
    out.truncate(length);
    out
}
