//! Faults laid into valid bytes: one at a chosen field, or several at random.

use crate::make::{Field, Made};
use crate::random::Random;

/// Numbers worth trying in any field: small ones, every bound and one more, and the largest of each width.
const NUMBERS: [u64; 30] = [
    0,
    1,
    2,
    3,
    4,
    5,
    7,
    8,
    255,
    256,
    257,
    412,
    1183,
    1191,
    4096,
    4097,
    0xFFFF,
    0x1_0000,
    0x1_0001,
    64 << 20,
    (64 << 20) + 1,
    256 << 20,
    (256 << 20) + 1,
    0x7FFF_FFFF,
    0x8000_0000,
    0xFFFF_FFFF,
    0x1_0000_0000,
    0x7FFF_FFFF_FFFF_FFFF,
    0x8000_0000_0000_0000,
    u64::MAX,
];

/// All that is worth trying in this field of an input of `length` bytes: the numbers above, and those
/// that, added to a place near the field, come to the end of the input or wrap to a place inside it.
pub fn extremes(field: Field, length: usize) -> Vec<u64> {
    let behind = (field.place + field.width) as u64;
    let left = (length as u64).saturating_sub(behind);
    let mut values = NUMBERS.to_vec();
    for near in 0..20 {
        values.push(left.wrapping_add(near).wrapping_sub(18));
        values.push(near.wrapping_sub(behind).wrapping_sub(2));
        values.push(u64::MAX - near);
        values.push(u64::from(u32::MAX) - near);
    }
    values
}

/// Stores the low bytes of a number in a field, as far as the bytes reach.
pub fn set(bytes: &mut [u8], field: Field, value: u64) {
    let stored = value.to_le_bytes();
    for (at, byte) in bytes.iter_mut().skip(field.place).take(field.width).enumerate() {
        *byte = stored[at];
    }
}

/// The bytes with `faults` random faults.
pub fn several(random: &mut Random, made: &Made, faults: usize) -> Vec<u8> {
    let mut bytes = made.bytes.clone();
    for _ in 0..faults {
        one(random, made, &mut bytes);
    }
    bytes
}

fn one(random: &mut Random, made: &Made, bytes: &mut Vec<u8>) {
    let length = bytes.len();
    match random.below(8) {
        0 => change_byte(random, bytes),
        1 | 2 => {
            let field = random.pick(&made.fields);
            let values = extremes(field, length);
            set(bytes, field, random.pick(&values));
        }
        3 => nudge(random, made, bytes),
        4 => copy_field(random, made, bytes),
        5 => bytes.truncate(random.below(length + 1)),
        6 => {
            let extra = random.below(20);
            let place = random.below(length + 1);
            bytes.splice(place..place, random.bytes(extra));
        }
        _ => {
            let start = random.below(length + 1);
            let end = length.min(start + random.below(20));
            bytes.drain(start..end);
        }
    }
}

fn change_byte(random: &mut Random, bytes: &mut [u8]) {
    if !bytes.is_empty() {
        let place = random.below(bytes.len());
        bytes[place] = random.u8();
    }
}

/// Moves a number a little up or down.
fn nudge(random: &mut Random, made: &Made, bytes: &mut [u8]) {
    let field = random.pick(&made.fields);
    if let Some(byte) = bytes.get_mut(field.place) {
        *byte = byte.wrapping_add(random.u8() % 7).wrapping_sub(3);
    }
}

/// Copies a number over another of its width: a key or an id that comes again.
fn copy_field(random: &mut Random, made: &Made, bytes: &mut [u8]) {
    let from = random.pick(&made.fields);
    let alike: Vec<Field> =
        made.fields.iter().copied().filter(|field| field.width == from.width).collect();
    let to = random.pick(&alike);
    if from.place.max(to.place) + from.width <= bytes.len() {
        bytes.copy_within(from.place..from.place + from.width, to.place);
    }
}
