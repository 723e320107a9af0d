//! Fields read one after the other from a part of the input, and bytes written one after the other.

use crate::answer::{ask, Taken, LIMIT, ROOM, SHAPE, TEXT, VALUE};

/// A place in the input, and the end of the part that is read. Places count from the input's start.
#[derive(Clone, Copy)]
pub struct Cursor<'a> {
    input: &'a [u8],
    at: usize,
    end: usize,
}

impl<'a> Cursor<'a> {
    /// Reads `input` from `at` up to `end`, which are places in it.
    pub fn new(input: &'a [u8], at: usize, end: usize) -> Self {
        debug_assert!(at <= end && end <= input.len());
        Cursor { input, at, end }
    }

    pub fn place(&self) -> usize {
        self.at
    }

    pub fn left(&self) -> usize {
        self.end - self.at
    }

    /// The input from `start`, a place passed before, up to here.
    pub fn since(&self, start: usize) -> &'a [u8] {
        &self.input[start..self.at]
    }

    /// The next `length` bytes as one field.
    pub fn take(&mut self, length: u64) -> Taken<&'a [u8]> {
        ask(length <= self.left() as u64, SHAPE, self.at)?;
        let start = self.at;
        self.at += length as usize;
        Ok(self.since(start))
    }

    pub fn u8(&mut self) -> Taken<u8> {
        Ok(self.take(1)?[0])
    }

    pub fn u32(&mut self) -> Taken<u32> {
        Ok(u32_at(self.take(4)?, 0))
    }

    pub fn u64(&mut self) -> Taken<u64> {
        Ok(u64_at(self.take(8)?, 0))
    }

    /// A byte that is at most `most`.
    pub fn byte_to(&mut self, most: u8) -> Taken<u8> {
        let place = self.at;
        let byte = self.u8()?;
        ask(byte <= most, VALUE, place)?;
        Ok(byte)
    }

    /// A u32 that is at most `most`: a count or a length.
    pub fn u32_to(&mut self, most: u32) -> Taken<u32> {
        let place = self.at;
        let number = self.u32()?;
        ask(number <= most, LIMIT, place)?;
        Ok(number)
    }

    /// A u64 length that is at most `most`.
    pub fn u64_to(&mut self, most: u64) -> Taken<u64> {
        let place = self.at;
        let number = self.u64()?;
        ask(number <= most, LIMIT, place)?;
        Ok(number)
    }

    /// A u32 length of at most `most`, and so many bytes of UTF-8.
    pub fn text(&mut self, most: u32) -> Taken<&'a [u8]> {
        let length = self.u32_to(most)?;
        let place = self.at;
        let text = self.take(u64::from(length))?;
        ask_text(text, place)?;
        Ok(text)
    }

    /// Nothing is left over.
    pub fn finish(self) -> Taken<()> {
        ask(self.left() == 0, SHAPE, self.at)
    }
}

/// Whether the bytes are UTF-8 as in RFC 3629.
pub fn is_text(bytes: &[u8]) -> bool {
    std::str::from_utf8(bytes).is_ok()
}

/// Refuses bytes that are no UTF-8 at the first of them at which no valid UTF-8 continues; `start` is where they stand.
pub fn ask_text(bytes: &[u8], start: usize) -> Taken<()> {
    match broken(bytes) {
        None => Ok(()),
        Some(place) => ask(false, TEXT, start + place),
    }
}

/// The length of the longest prefix with which some text begins, of bytes that are none.
///
/// All that stands before the first character that is not whole is such a prefix, and so are the bytes behind it as
/// long as they only lack some more: `error_len` is then none.
fn broken(bytes: &[u8]) -> Option<usize> {
    let whole = std::str::from_utf8(bytes).err()?.valid_up_to();
    let begins = |end: &usize| {
        std::str::from_utf8(&bytes[whole..*end])
            .is_err_and(|error| error.valid_up_to() == 0 && error.error_len().is_none())
    };
    let ends = whole + 1..=bytes.len();
    Some(ends.take_while(begins).last().unwrap_or(whole))
}

/// The little-endian number at a place of a slice that is long enough.
pub fn u16_at(bytes: &[u8], at: usize) -> u16 {
    u16::from_le_bytes(array(bytes, at))
}

pub fn u32_at(bytes: &[u8], at: usize) -> u32 {
    u32::from_le_bytes(array(bytes, at))
}

pub fn u64_at(bytes: &[u8], at: usize) -> u64 {
    u64::from_le_bytes(array(bytes, at))
}

fn array<const N: usize>(bytes: &[u8], at: usize) -> [u8; N] {
    bytes[at..at + N].try_into().expect("N bytes")
}

/// A lent output with room for all that will be written to it, filled from its start.
pub struct Output<'a> {
    rest: &'a mut [u8],
}

impl<'a> Output<'a> {
    /// Asks that `out` has the `needed` bytes.
    pub fn with_room(out: &'a mut [u8], needed: usize) -> Taken<Self> {
        ask(needed <= out.len(), ROOM, needed)?;
        Ok(Output { rest: out })
    }

    /// Writes the bytes behind those written before.
    pub fn put(&mut self, bytes: &[u8]) {
        let (here, rest) = std::mem::take(&mut self.rest).split_at_mut(bytes.len());
        here.copy_from_slice(bytes);
        self.rest = rest;
    }
}

#[cfg(test)]
mod tests {
    use super::*;

    #[test]
    fn a_text_breaks_at_the_first_byte_at_which_none_continues() {
        for (bytes, place) in [
            (&[0xE2, 0x82, 0xAC][..], None),
            (&[0xE2, 0x82, 0x41], Some(2)),
            (&[0xE2, 0x82], Some(2)),
            (&[0xE0, 0x80], Some(1)),
            (&[0xC0], Some(0)),
            (&[0xED, 0xA0], Some(1)),
            (&[0xF4, 0x90], Some(1)),
            (&[0xF5], Some(0)),
            (&[0x41, 0xC3], Some(2)),
            (&[0x41, 0xC3, 0xA9, 0xA9, 0x41], Some(3)),
            (&[0xF0, 0x9F, 0x98, 0x41], Some(3)),
        ] {
            assert_eq!(broken(bytes), place, "{bytes:02X?}");
        }
    }
}
