//! Texts: valid UTF-8 with characters at every edge, and byte strings that are none.

use crate::random::Random;

/// Characters at the edges of what one, two, three and four bytes hold.
const CHARACTERS: [char; 14] = [
    '\0',
    'a',
    '/',
    '\u{7F}',
    '\u{80}',
    '\u{E4}',
    '\u{7FF}',
    '\u{800}',
    '\u{D7FF}',
    '\u{E000}',
    '\u{FFFF}',
    '\u{1_0000}',
    '\u{1_F525}',
    '\u{10_FFFF}',
];

/// Bytes at the edges of the grammar of UTF-8.
pub const EDGES: [u8; 25] = [
    0x00, 0x41, 0x7F, 0x80, 0x8F, 0x90, 0x9F, 0xA0, 0xBF, 0xC0, 0xC1, 0xC2, 0xDF, 0xE0, 0xE1, 0xEC,
    0xED, 0xEE, 0xEF, 0xF0, 0xF1, 0xF3, 0xF4, 0xF5, 0xFF,
];

/// Byte strings that are no text wherever they stand: overlong forms, surrogates, characters beyond
/// U+10FFFF, bytes that begin nothing, and characters that are cut.
const BROKEN: [&[u8]; 16] = [
    &[0xC0, 0x80],
    &[0xC1, 0xBF],
    &[0xE0, 0x80, 0x80],
    &[0xE0, 0x9F, 0xBF],
    &[0xF0, 0x80, 0x80, 0x80],
    &[0xF0, 0x8F, 0xBF, 0xBF],
    &[0xED, 0xA0, 0x80],
    &[0xED, 0xBF, 0xBF],
    &[0xF4, 0x90, 0x80, 0x80],
    &[0xF5, 0x80, 0x80, 0x80],
    &[0x80],
    &[0xFF],
    &[0xC2, 0x41],
    &[0xE1, 0x80, 0x41],
    &[0xF1, 0x80, 0x80, 0x41],
    &[0xF8, 0x88, 0x80, 0x80, 0x80],
];

/// A text of up to `most` characters.
pub fn valid(random: &mut Random, most: usize) -> Vec<u8> {
    let length = random.below(most + 1);
    (0..length).map(|_| random.pick(&CHARACTERS)).collect::<String>().into_bytes()
}

/// A byte string that is no text.
pub fn broken(random: &mut Random, most: usize) -> Vec<u8> {
    let mut bytes = valid(random, most);
    if random.once_in(4) {
        // A character of several bytes that the end cuts.
        let whole = random.pick(&CHARACTERS[4..]).to_string().into_bytes();
        bytes.extend(&whole[..1 + random.below(whole.len() - 1)]);
    } else {
        bytes.extend(random.pick(&BROKEN));
        bytes.extend(valid(random, most));
    }
    bytes
}

/// A text, or once in `times` a byte string that is none.
pub fn either(random: &mut Random, most: usize, times: usize) -> Vec<u8> {
    if random.once_in(times) {
        broken(random, most)
    } else {
        valid(random, most)
    }
}
