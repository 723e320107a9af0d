//! Messages: every tag, every short length, texts at every edge, and writing.

use differential::compare::Comparison;
use differential::random::Random;
use differential::text::{self, EDGES};

/// The tags of document 000, commands and then events.
const TAGS: [u32; 24] = [
    0x0000, 0x0001, 0x0100, 0x0101, 0x0102, 0x0103, 0x0104, 0x0105, 0x1000, 0x1100, 0x1101, 0x1102,
    0x1103, 0x1104, 0x1105, 0x1200, 0x1300, 0x1301, 0x1302, 0x1303, 0x1400, 0x1500, 0x1FFE, 0x1FFF,
];

/// The most bytes of a message with no data, and some more.
const SHORT: usize = 40;

/// All tags, with up to three bytes behind them.
pub fn every_tag(run: &mut Comparison) {
    for tag in 0..=u16::MAX {
        let mut message = tag.to_le_bytes().to_vec();
        message.extend(run.random.bytes(3));
        for length in 2..=message.len() {
            run.message(&message[..length]);
        }
    }
}

/// All known tags at all short lengths, the bytes behind the end still there.
pub fn every_length(run: &mut Comparison) {
    for tag in TAGS {
        for _ in 0..150 {
            let message = short_message(&mut run.random, tag as u16);
            for length in 0..=SHORT {
                run.message(&message[..length]);
            }
        }
    }
}

/// A tag, and bytes that are often small, so that flags, levels and lengths are often good.
fn short_message(random: &mut Random, tag: u16) -> Vec<u8> {
    let small = random.once_in(2);
    let mut message = tag.to_le_bytes().to_vec();
    while message.len() < SHORT {
        let byte = random.u8();
        message.push(if small { random.pick(&[0, 0, 0, 1, 2, 4, 5, 16, byte]) } else { byte });
    }
    message
}

/// The message Panic with this text, of less than 256 bytes.
fn panic(text: &[u8]) -> Vec<u8> {
    [&[0xFE, 0x1F, text.len() as u8, 0, 0, 0], text].concat()
}

/// Panic with every text of two bytes, and with all strings of up to four bytes at the edges of UTF-8.
pub fn texts(run: &mut Comparison) {
    for two in 0..=u16::MAX {
        run.message(&panic(&two.to_be_bytes()));
    }
    for one in EDGES {
        for two in EDGES {
            for three in EDGES {
                run.message(&panic(&[one, two, three]));
                for four in EDGES {
                    run.message(&panic(&[one, two, three, four]));
                }
            }
        }
    }
}

/// Panic with a character, or what is none, behind so many plain ones and before some more: a reader that
/// takes plain text in steps of several bytes meets it at every place in a step.
pub fn long_texts(run: &mut Comparison) {
    for before in 0..=40 {
        for one in EDGES {
            for two in EDGES {
                let after = run.random.below(40);
                let text = [&[b'x'; 40][..before], &[one, two], &[b'y'; 40][..after]].concat();
                run.message(&panic(&text));
                let middle = text::either(&mut run.random, 4, 2);
                run.message(&panic(&[&text[..before], &middle, &text[before + 2..]].concat()));
            }
        }
    }
}

/// Valid messages of every kind, as they are and with up to two bytes changed, cut or added.
pub fn damaged(run: &mut Comparison) {
    for _ in 0..100_000 {
        let mut bytes = random_message(&mut run.random);
        for _ in 0..run.random.below(3) {
            let place = run.random.below(bytes.len().max(1));
            match run.random.below(4) {
                0 => bytes.truncate(place),
                1 => bytes.push(run.random.u8()),
                _ if bytes.is_empty() => {}
                2 => bytes[place] = run.random.u8(),
                _ => bytes[place] ^= 1,
            }
        }
        run.message(&bytes);
    }
}

/// A message that the reference writes from random numbers.
fn random_message(random: &mut Random) -> Vec<u8> {
    loop {
        let tag = random.pick(&TAGS);
        let numbers = [0; 4].map(|_| edge_number(random));
        let data = text::either(random, 10, 4);
        let mut out = [0; 128];
        let [a, b, c, d] = numbers;
        let answer = reference::message_write(tag, a, b, c, d, &data, &mut out);
        if answer.number == 0 {
            return out[..answer.place as usize].to_vec();
        }
    }
}

/// Numbers at the edges of every width.
const EDGE_NUMBERS: [u64; 14] = [
    0,
    1,
    2,
    4,
    5,
    0xFF,
    0x100,
    0xFFFF,
    0x1_0000,
    0xFFFF_FFFF,
    0x1_0000_0000,
    0x0123_4567_89AB_CDEF,
    u64::MAX - 1,
    u64::MAX,
];

fn edge_number(random: &mut Random) -> u64 {
    let wide = random.u64();
    match random.below(4) {
        0 => random.pick(&EDGE_NUMBERS),
        1 => wide >> random.below(64),
        _ => 0,
    }
}

/// Every known tag with edge numbers in all four places, with and without data.
pub fn written_edges(run: &mut Comparison) {
    let values = [0, 1, 2, 5, 0xFF, 0x1_0000, 0xFFFF_FFFF, 0x1_0000_0000];
    for tag in TAGS {
        for at in 0..values.len().pow(4) {
            let digit = |power| values[at / values.len().pow(power) % values.len()];
            let numbers = [digit(0), digit(1), digit(2), digit(3)];
            let data: &[u8] = run.random.pick(&[&b""[..], b"", b"data", b"\xFF"]);
            write(run, tag, numbers, data);
        }
    }
}

/// Messages that can be written, as they are and with the tag, a number or the data replaced.
pub fn written(run: &mut Comparison) {
    for _ in 0..100_000 {
        let message = random_message(&mut run.random);
        let read = reference::message_read(&message);
        let start = read.data_place as usize;
        let mut tag = read.tag;
        let mut numbers = [read.a, read.b, read.c, read.d];
        let mut data = message[start..start + read.data_length as usize].to_vec();
        match run.random.below(8) {
            0 => tag = other_tag(&mut run.random, tag),
            1 => numbers[run.random.below(4)] = edge_number(&mut run.random),
            2 => data = text::either(&mut run.random, 6, 3),
            3 => data = run.random.bytes(3),
            _ => {}
        }
        write(run, tag, numbers, &data);
    }
}

/// A tag that is random, too wide, nearly this one, or of another kind.
fn other_tag(random: &mut Random, tag: u32) -> u32 {
    match random.below(4) {
        0 => random.u32(),
        1 => tag | 0x1_0000,
        2 => tag ^ 1 << random.below(17),
        _ => random.pick(&TAGS),
    }
}

/// Writes a message, and reads what was written.
fn write(run: &mut Comparison, tag: u32, numbers: [u64; 4], data: &[u8]) {
    let (answer, out) = run.write_message(tag, numbers, data);
    if answer.number == 0 {
        let message = out[..answer.place as usize].to_vec();
        let reading = run.message(&message);
        let read = (reading.number, reading.tag, [reading.a, reading.b, reading.c, reading.d]);
        assert_eq!(read, (0, tag, numbers), "a message that was written");
    }
}
