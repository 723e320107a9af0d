//! Every bound of the rules, and one more: in files, wrappers and messages, and in adds and writing.
//!
//! What a bound answers is said here once more, apart from the reference.

pub mod counts;
pub mod payloads;
pub mod texts;
pub mod whole_file;

use differential::make::Made;
use reference::Answer;

const MIB: usize = 1 << 20;

const SIZE: u32 = 6;
const MANY: u32 = 8;
const TWICE: u32 = 9;
const LIMIT: u32 = 12;
const TEXT: u32 = 14;
const HAVE: u32 = 17;
const ABSENT: u32 = 25;

/// The answer has this number and place.
#[track_caller]
fn expect(answer: Answer, number: u32, place: usize) {
    assert_eq!((answer.number, answer.place), (number, place as u64));
}

/// A file with one section.
fn file_of(id: u32, version: u16, payload: impl FnOnce(&mut Made)) -> Vec<u8> {
    let mut made = Made::file();
    made.section(id, version, 0, payload);
    made.bytes
}

/// An empty list: a section that the canonical form leaves out.
fn empty_list(id: u32) -> Vec<u8> {
    file_of(id, 1, |made| {
        made.number(4, 0);
    })[16..]
        .to_vec()
}

/// So many bytes, the first and the last of them not 0.
fn long_bytes(length: usize) -> Vec<u8> {
    let mut bytes = vec![0; length];
    bytes[0] = 0xA1;
    bytes[length - 1] = 0xA2;
    bytes
}
