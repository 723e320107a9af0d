//! Changes of an input, with no knowledge of what it is.

use differential::random::Random;

/// The most bytes that an input grows to.
pub const MOST: usize = 8192;

/// Numbers at which things change.
const NUMBERS: [u64; 24] = [
    0,
    1,
    2,
    4,
    7,
    8,
    16,
    32,
    33,
    63,
    64,
    65,
    127,
    128,
    255,
    256,
    257,
    4096,
    4097,
    65_535,
    65_536,
    0x7FFF_FFFF,
    0xFFFF_FFFF,
    u64::MAX,
];

/// The input with one to four changes; `other` is an input to take parts from.
pub fn changed(random: &mut Random, input: &[u8], other: &[u8]) -> Vec<u8> {
    let mut bytes = input.to_vec();
    for _ in 0..1 + random.below(4) {
        change(random, &mut bytes, other);
    }
    bytes.truncate(MOST);
    bytes
}

fn change(random: &mut Random, bytes: &mut Vec<u8>, other: &[u8]) {
    let place = place(random, bytes.len());
    let most = random.pick(&[20, 20, 20, 300]);
    let length = 1 + random.below(most);
    let end = bytes.len().min(place + length);
    match random.below(11) {
        0 => {
            if let Some(byte) = bytes.get_mut(place) {
                *byte ^= 1 << random.below(8);
            }
        }
        1 => {
            if let Some(byte) = bytes.get_mut(place) {
                *byte = random.u8();
            }
        }
        2 | 3 => {
            let number = random.pick(&NUMBERS);
            store(random, bytes, place, number);
        }
        4 => {
            // What is left behind the number, or a little more or less.
            let left = bytes.len().saturating_sub(place) as u64;
            let near = left.wrapping_sub(random.below(24) as u64).wrapping_add(2);
            store(random, bytes, place, near);
        }
        5 => {
            if let Some(byte) = bytes.get_mut(place) {
                *byte = byte.wrapping_add(random.u8() % 9).wrapping_sub(4);
            }
        }
        6 => {
            bytes.drain(place..end);
        }
        7 => {
            let new = if random.once_in(2) { vec![0; length] } else { random.bytes(length) };
            bytes.splice(place..place, new);
        }
        8 => {
            let again = bytes[place..end].to_vec();
            bytes.splice(end..end, again);
        }
        9 => {
            let from = random.below(other.len() + 1);
            let part = &other[from..other.len().min(from + length)];
            let end = bytes.len().min(place + part.len());
            bytes.splice(place..end, part.iter().copied());
        }
        _ => bytes.truncate(place),
    }
}

/// A place in so many bytes, more often behind a header than in it.
fn place(random: &mut Random, length: usize) -> usize {
    match length > 16 && !random.once_in(16) {
        true => 16 + random.below(length - 15),
        false => random.below(length + 1),
    }
}

/// Stores a number of one, two, four or eight bytes, as far as the bytes reach.
fn store(random: &mut Random, bytes: &mut [u8], place: usize, number: u64) {
    let width = 1 << random.below(4);
    for (byte, new) in bytes.iter_mut().skip(place).zip(number.to_le_bytes()).take(width) {
        *byte = new;
    }
}
