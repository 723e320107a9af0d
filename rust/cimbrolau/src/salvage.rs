//! Salvage: what can be kept of a damaged snapshot, and what is lost.

use crate::memory::zeros;
use crate::raw;
use crate::records::{self, u32_at, u64_at};
use crate::refusal::{outcome, room_for, Result};
use crate::snapshot::file_most;
use crate::Kind;

/// A part of a damaged file that is lost: a section with its header, or all bytes to the end from the first section on that
/// does not fit in the file.
#[derive(Clone, Copy, Debug, PartialEq, Eq, Hash)]
pub struct Loss {
    /// Where it starts in the file.
    pub start: u64,
    /// How many bytes are lost.
    pub bytes: u64,
    /// Why: what `check` says of the section behind those kept before it; CUT of what does not fit.
    pub kind: Kind,
}

impl Loss {
    /// The bytes that are lost, of the file that it came from; none in a file too short to be that.
    ///
    /// ```
    /// use cimbrolau::snapshot;
    /// let file = [&snapshot::EMPTY[..], b"stray"].concat();
    /// let loss = snapshot::salvage(&file)?.losses[0];
    /// assert_eq!(loss.part(&file), Some(&b"stray"[..]));
    /// # Ok::<(), cimbrolau::Refusal>(())
    /// ```
    pub fn part<'a>(&self, file: &'a [u8]) -> Option<&'a [u8]> {
        records::part(file, self.start, self.bytes)
    }

    fn of(record: &[u8]) -> Loss {
        let number = u32_at(record, 16);
        let kind = Kind::of(number).unwrap_or_else(|| {
            panic!("libcimbrolau.a lost a section for {number}, which this wrapper does not know")
        });
        Loss { start: u64_at(record, 0), bytes: u64_at(record, 8), kind }
    }
}

/// What is salvaged of a file.
#[derive(Clone, Debug, PartialEq, Eq)]
pub struct Rescued {
    /// The canonical form of what is kept: a file that is always accepted.
    pub file: Vec<u8>,
    /// What is lost, in the order of the file; nothing exactly if the file is accepted.
    pub losses: Vec<Loss>,
}

/// Bytes in the record of a loss, and how many records the first call has room for.
const RECORD: usize = 24;
const FEW: usize = 64;

/// What can be kept of a damaged file: each section that would be accepted behind those kept before. Each other one that fits
/// in the file is dropped; the first that does not fit takes all bytes to the end with it. Only a file that is too long or
/// whose header is wrong is refused.
///
/// ```
/// use cimbrolau::{snapshot, Kind};
/// let mut good = snapshot::EMPTY.to_vec();
/// good.extend([5, 0, 0, 0, 1, 0, 0, 0, 16, 0, 0, 0, 0, 0, 0, 0]); // a DISKS section
/// good.extend([1, 0, 0, 0, 1, 0, 0, 0, 0, 0, 0, 0, 0, 0, 0, 0]); // disk 1, with no backend
/// let mut file = good.clone();
/// file.extend([4, 0, 0, 0, 9, 0, 0, 0, 0, 0, 0, 0, 0, 0, 0, 0]); // DEVICES of a version that is not taken
/// file.extend([6, 0, 0, 0, 1, 0, 0, 0, 200, 0, 0, 0, 0, 0, 0, 0]); // RAM of 200 bytes, of which
/// file.extend([0x55; 70]); // 70 are there
/// assert_eq!(snapshot::check(&file).unwrap_err().kind, Kind::SecVer);
///
/// let rescued = snapshot::salvage(&file)?;
/// assert_eq!(rescued.file, good);
/// let [devices, ram] = rescued.losses[..] else { panic!("two losses") };
/// assert_eq!((devices.start, devices.bytes, devices.kind), (48, 16, Kind::SecVer));
/// assert_eq!((ram.start, ram.bytes, ram.kind), (64, 86, Kind::Cut));
/// # Ok::<(), cimbrolau::Refusal>(())
/// ```
pub fn salvage(file: &[u8]) -> Result<Rescued> {
    // What is kept is never longer than the file; where there is no memory for that, ROOM is the answer.
    let mut out = zeros(file_most(file.len())).unwrap_or_default();
    let mut records = vec![0; RECORD * FEW];
    let mut answer = raw::salvage(file, &mut out, &mut records);
    if answer.number == Kind::Room.number() && out.len() >= file.len() {
        // The file has room, so that the records have not: they are as long as the place says.
        records = zeros(answer.place as usize).unwrap_or_default();
        answer = raw::salvage(file, &mut out, &mut records);
    }
    let written = outcome(answer.number, answer.place)?;
    out.truncate(written as usize);
    records.truncate(RECORD * answer.losses as usize);
    let mut losses = room_for(answer.losses as usize)?;
    losses.extend(records.chunks_exact(RECORD).map(Loss::of));
    Ok(Rescued { file: out, losses })
}

#[cfg(test)]
mod tests {
    use super::*;
    use crate::snapshot::EMPTY;

    /// A section of this id with no payload, of a version that no known section has.
    fn broken(id: u32) -> Vec<u8> {
        let mut bytes = id.to_le_bytes().to_vec();
        bytes.extend([9, 0, 0, 0, 0, 0, 0, 0, 0, 0, 0, 0]);
        bytes
    }

    #[test]
    fn more_losses_than_the_first_call_has_room_for() {
        for count in [0, 1, FEW - 1, FEW, FEW + 1, 5000] {
            let file = [&EMPTY[..], &broken(6).repeat(count)].concat();
            let rescued = salvage(&file).unwrap();
            assert_eq!(rescued.file, EMPTY);
            let losses: Vec<Loss> = (0..count as u64)
                .map(|at| Loss { start: 16 + 16 * at, bytes: 16, kind: Kind::SecVer })
                .collect();
            assert_eq!(rescued.losses, losses);
        }
    }

    #[test]
    fn a_wrong_header_is_refused() {
        let mut file = EMPTY;
        file[10] = 2;
        let refusal = salvage(&file).unwrap_err();
        assert_eq!((refusal.kind, refusal.place), (Kind::Endian, 10));
        assert_eq!(salvage(&EMPTY[..15]).unwrap_err().kind, Kind::Short);
    }
}
