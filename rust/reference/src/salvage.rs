//! Salvage: what can be kept of a damaged file, and one record for each part that is lost.

use crate::answer::{Answer, Taken, CUT};
use crate::cursor::{u64_at, Output};
use crate::snapshot::{
    put_canonical, read_header, read_section, Canonical, Section, HEADER, SECTION_HEADER,
};

/// The answer: a number and a place, and how many records were written.
#[repr(C)]
#[derive(Clone, Copy, Debug, PartialEq, Eq)]
pub struct Salvaged {
    pub number: u32,
    pub place: u64,
    pub losses: u64,
}

/// Bytes in the record of a loss.
const LOSS: usize = 24;

/// A part of the file that is lost.
struct Loss {
    start: usize,
    bytes: usize,
    number: u32,
}

/// Writes the canonical form of the sections that are kept to `out`, and a record for each loss to `losses`.
pub fn salvage(file: &[u8], out: &mut [u8], losses: &mut [u8]) -> Salvaged {
    match try_salvage(file, out, losses) {
        Ok((written, lost)) => Salvaged { number: 0, place: written as u64, losses: lost as u64 },
        Err(Answer { number, place }) => Salvaged { number, place, losses: 0 },
    }
}

/// The bytes of the file written, and how many losses there were. Both rooms are asked before either output is touched.
fn try_salvage(file: &[u8], out: &mut [u8], losses: &mut [u8]) -> Taken<(usize, usize)> {
    read_header(file)?;
    let (kept, lost) = divide(file);
    let form = Canonical::of(&kept);
    let mut output = Output::with_room(out, form.length)?;
    let mut records = Output::with_room(losses, LOSS * lost.len())?;
    put_canonical(&form, &mut output);
    for loss in &lost {
        records.put(&(loss.start as u64).to_le_bytes());
        records.put(&(loss.bytes as u64).to_le_bytes());
        records.put(&loss.number.to_le_bytes());
        records.put(&[0; 4]);
    }
    Ok((form.length, lost.len()))
}

/// The sections that are kept, and what is lost. A section is kept if the reader would accept it after those kept before;
/// the first that does not fit in the file takes all bytes to the end with it.
fn divide(file: &[u8]) -> (Vec<Section<'_>>, Vec<Loss>) {
    let (mut kept, mut lost) = (Vec::new(), Vec::new());
    let mut start = HEADER.len();
    while start < file.len() {
        let left = file.len() - start;
        let Some(bytes) = whole_section(&file[start..]) else {
            lost.push(Loss { start, bytes: left, number: CUT });
            break;
        };
        match read_section(file, start, &kept) {
            Ok(section) => kept.push(section),
            Err(refusal) => lost.push(Loss { start, bytes, number: refusal.number }),
        }
        start += bytes;
    }
    (kept, lost)
}

/// How many bytes the section has that these bytes begin with, header included; none if it does not fit in them.
fn whole_section(rest: &[u8]) -> Option<usize> {
    let room = rest.len().checked_sub(SECTION_HEADER)?;
    let length = u64_at(rest, 8);
    (length <= room as u64).then(|| SECTION_HEADER + length as usize)
}
