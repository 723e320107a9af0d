//! Texts that break: in every byte of every kind of character, at every offset, behind every kind of character.

use differential::compare::Comparison;

use crate::snapshots::with_text;

const TEXT: u32 = 14;

/// The alternatives of RFC 3629, section 4, that have more than one byte: the first byte's bounds, the second one's, and
/// how many bytes there are. Every byte behind the second lies between 80 and BF.
const ALTERNATIVES: [([u8; 2], [u8; 2], usize); 8] = [
    ([0xC2, 0xDF], [0x80, 0xBF], 2),
    ([0xE0, 0xE0], [0xA0, 0xBF], 3),
    ([0xE1, 0xEC], [0x80, 0xBF], 3),
    ([0xED, 0xED], [0x80, 0x9F], 3),
    ([0xEE, 0xEF], [0x80, 0xBF], 3),
    ([0xF0, 0xF0], [0x90, 0xBF], 4),
    ([0xF1, 0xF3], [0x80, 0xBF], 4),
    ([0xF4, 0xF4], [0x80, 0x8F], 4),
];

/// Bytes that begin no character.
const NO_FIRST: [u8; 6] = [0x80, 0xBF, 0xC0, 0xC1, 0xF5, 0xFF];

/// What stands before: characters of one, two, three and four bytes, and all of them.
const BEFORE: [&str; 5] = ["x", "\u{E9}", "\u{20AC}", "\u{1_F600}", "a\u{E9}\u{20AC}\u{1_F600}"];

/// What stands behind, where something does.
const BEHIND: [&str; 3] = ["", "y", "\u{20AC}y"];

pub fn all(run: &mut Comparison) {
    let mut turn = 0;
    for offset in 0..=40 {
        for before in BEFORE {
            let prefix = prefix(before, offset);
            for (broken, place, ended) in breaks() {
                turn += 1;
                let behind = if ended { "" } else { BEHIND[turn % 3] };
                let text = [&prefix[..], &broken, behind.as_bytes()].concat();
                judged(run, &text, turn % 5, offset + place);
            }
        }
    }
}

/// So many bytes of text: this one again and again, behind as many letters as are missing.
fn prefix(text: &str, length: usize) -> Vec<u8> {
    let mut bytes = vec![b'x'; length % text.len()];
    while bytes.len() < length {
        bytes.extend(text.as_bytes());
    }
    bytes
}

/// Bytes that are no text, the place at which they break, and whether that is because they end.
fn breaks() -> Vec<(Vec<u8>, usize, bool)> {
    let mut all: Vec<_> = NO_FIRST.map(|byte| (vec![byte], 0, false)).into();
    for ([low, high], second, length) in ALTERNATIVES {
        for first in [low, high] {
            for last in [0x80, 0xBF] {
                let character = [first, second[0], last, last];
                for place in 1..length {
                    all.push((character[..place].to_vec(), place, true));
                    let bounds = if place == 1 { second } else { [0x80, 0xBF] };
                    for wrong in [0x00, 0x41, 0x7F, bounds[0] - 1, bounds[1] + 1, 0xC2, 0xFF] {
                        let mut bytes = character[..length].to_vec();
                        bytes[place] = wrong;
                        all.push((bytes, place, false));
                    }
                }
            }
        }
    }
    all
}

/// The text as a label, as either image, in a Log or in a Panic: TEXT at the byte at which it breaks.
fn judged(run: &mut Comparison, text: &[u8], role: usize, place: usize) {
    let length = text.len() as u8;
    let (answered, start) = match role {
        0..=2 => {
            let answer = run.file(&with_text(text, role));
            ((answer.number, answer.place), [54, 44, 52][role])
        }
        3 => {
            let reading = run.message(&[&[0x00, 0x14, 2, length, 0, 0, 0], text].concat());
            ((reading.number, reading.place), 7)
        }
        _ => {
            let reading = run.message(&[&[0xFE, 0x1F, length, 0, 0, 0], text].concat());
            ((reading.number, reading.place), 6)
        }
    };
    assert_eq!(answered, (TEXT, start + place as u64), "{text:02X?}");
}
