//! Fields of CPU and MMU states, and access words.

use differential::compare::Comparison;
use differential::random::Random;
use differential::sheets::State::{self, Cpu, Mmu};

/// The lengths of states, and how many fields each kind has.
const SHAPES: [(State, usize, u32); 4] =
    [(Cpu, 1183, 26), (Cpu, 1191, 26), (Cpu, 1250, 26), (Mmu, 264, 11)];

/// Every field and index beyond the last, and some far from it.
const FAR: [u32; 4] = [64, 255, 1 << 16, u32::MAX];

/// Any bytes, but that the listed ones are in their range.
fn state(random: &mut Random, kind: State, length: usize) -> Vec<u8> {
    let mut state: Vec<u8> = (0..length).map(|_| random.u8()).collect();
    if kind == Cpu && length >= 1183 {
        state[144] %= 4;
        state[145] %= 2;
        state[260] %= 8;
    }
    if kind == Cpu && length >= 1191 {
        state[1183..1187].copy_from_slice(&(length as u32 - 1187).to_le_bytes());
        for byte in &mut state[1187..1190] {
            *byte %= 2;
        }
    }
    state
}

fn widths() -> [usize; 7] {
    [1, 2, 4, 8, 16, 512, 0]
}

/// Every field with every index, one past, and far ones: read into every room that matters, and set.
pub fn every_field(run: &mut Comparison) {
    for (kind, length, fields) in SHAPES {
        for round in 0..4 {
            let bytes = state(&mut run.random, kind, length);
            for field in (0..=fields + 1).chain(FAR) {
                for index in (0..=17).chain(FAR) {
                    for room in widths().into_iter().chain([3, 15, 511, 600]) {
                        run.field(kind, &bytes, field, index, room);
                    }
                    for width in widths() {
                        let mut value: Vec<u8> = (0..width).map(|_| run.random.u8()).collect();
                        if round % 2 == 0 {
                            value.iter_mut().for_each(|byte| *byte %= 2);
                        }
                        run.set(kind, &bytes, field, index, &value);
                    }
                }
            }
        }
    }
}

/// Each byte that is listed, at every value: as it stands in a state, read with room and with none, and as it is set;
/// beside a second one that is wrong.
pub fn every_value(run: &mut Comparison) {
    let listed = [144, 145, 260, 1183, 1184, 1185, 1186, 1187, 1188, 1189, 1190];
    for length in [1183, 1191, 1203] {
        let good = state(&mut run.random, Cpu, length);
        for place in listed.into_iter().filter(|place| *place < length) {
            for value in 0..=255 {
                let mut bytes = good.clone();
                bytes[place] = value;
                for field in [0, 3, 4, 12, 20, 22, 23, 24, 25] {
                    run.field(Cpu, &bytes, field, 0, 16);
                    run.field(Cpu, &bytes, field, 0, 0);
                    run.set(Cpu, &bytes, field, 0, &[1]);
                    run.set(Cpu, &good, field, 0, &[value]);
                }
                for other in listed.into_iter().filter(|other| *other < length) {
                    let mut two = bytes.clone();
                    two[other] = 9;
                    run.field(Cpu, &two, 1, 0, 8);
                    run.set(Cpu, &two, 3, 0, &[value]);
                    run.set(Cpu, &two, 24, 0, &[value]);
                }
            }
        }
    }
}

/// Every length up to far beyond the extension, with what the state says of its own length right, and wrong.
pub fn every_length(run: &mut Comparison) {
    for (kind, most, fields) in [(Cpu, 1300, 26), (Mmu, 300, 11)] {
        let bytes = state(&mut run.random, kind, most);
        for length in 0..most {
            let right = state(&mut run.random, kind, length);
            for field in [0, 3, 20, 22, 25] {
                run.field(kind, &right, field, 0, 512);
                run.set(kind, &right, field, 0, &[1]);
                run.set(kind, &right, field, 0, &[0; 8]);
            }
            for field in 0..=fields {
                run.field(kind, &bytes[..length], field, 0, 512);
                run.set(kind, &bytes[..length], field, 0, &[1]);
                run.set(kind, &bytes[..length], field, 0, &[0; 8]);
            }
        }
    }
}

/// Every field with values of every width up to 520 bytes.
pub fn every_width(run: &mut Comparison) {
    for (kind, length, fields) in SHAPES {
        let bytes = state(&mut run.random, kind, length);
        for field in 0..fields {
            for width in 0..=520 {
                run.set(kind, &bytes, field, 0, &vec![1; width]);
                run.field(kind, &bytes, field, 0, width);
            }
        }
    }
}

/// States, fields, indices and values at random.
pub fn random(run: &mut Comparison) {
    for _ in 0..100_000 {
        let (kind, length, fields) = SHAPES[run.random.below(SHAPES.len())];
        let mut bytes = state(&mut run.random, kind, length);
        if run.random.below(4) == 0 {
            let place = run.random.below(length);
            bytes[place] = run.random.u8();
        }
        let field = run.random.below(fields as usize + 1) as u32;
        let index = run.random.below(17) as u32;
        let width = widths()[run.random.below(7)];
        let value: Vec<u8> = (0..width).map(|_| run.random.u8()).collect();
        run.field(kind, &bytes, field, index, width);
        run.set(kind, &bytes, field, index, &value);
    }
}

/// Every word with one or two bits set or clear, every low half, and words at random.
pub fn access_words(run: &mut Comparison) {
    for low in 0..32 {
        for high in 0..32 {
            let bits = (1u32 << low) | (1 << high);
            run.access(bits);
            run.access(!bits);
        }
    }
    for half in 0..=0xFFFF {
        run.access(half);
        run.access(half | 0xFFFF_0000);
        let word = run.random.u32();
        run.access(word);
    }
}
