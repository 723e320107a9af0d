//! What newer savers append: tails behind META and the lists, and CPU states above 1191 bytes.

use differential::compare::Comparison;
use differential::make::{self, Made};

const SHAPE: u32 = 11;
const MOST_TAIL: usize = 64;

/// The sections that may have a tail: id, version, how many entries, and what they are.
fn section(run: &mut Comparison, id: u32, version: u16, count: u64) -> Made {
    let mut made = Made::default();
    made.number(4, count);
    for key in (0..count).rev() {
        let key = key as u32;
        match id {
            4 => made.device((key, 1, 0), &[7; 3]),
            5 => made.disk(key, b"base", b""),
            7 => {
                let state = make::cpu_state(&mut run.random, version, key == 0);
                made.cpu(key, &state, &[5; 2])
            }
            _ => {
                let state = make::mmu_state(&mut run.random, version);
                made.mmu(key, &state)
            }
        };
    }
    made
}

const LISTS: [(u32, u16); 6] = [(4, 1), (5, 1), (7, 1), (7, 2), (8, 1), (8, 2)];

fn file_of(id: u32, version: u16, payload: &[u8]) -> Vec<u8> {
    let mut made = Made::file();
    made.section(9, 1, 0, |made| {
        made.raw(b"other");
    });
    made.section(id, version, 0, |made| {
        made.raw(payload);
    });
    made.bytes
}

/// Tails of every length behind every kind of list, empty ones too, and edits beside them; the last entry's removal too.
pub fn behind_lists(run: &mut Comparison) {
    for (id, version) in LISTS {
        for count in 0..3 {
            let payload = section(run, id, version, count).bytes;
            for length in 0..=MOST_TAIL {
                let mut with_tail = payload.clone();
                with_tail.extend(run.random.bytes(length));
                let file = file_of(id, version, &with_tail);
                assert_eq!(run.file(&file).number, 0, "a tail of {length} bytes");
                run.add_device(&file, (1, 1, length as u16), b"new");
                run.add_device(&file, (0, 1, 0), b"");
                run.add_disk(&file, 1 + length as u32, b"new", b"");
                run.remove_device(&file, (0, 1, 0));
                run.replace_device(&file, (0, 1, 0), &with_tail[..length / 2]);
                run.remove_disk(&file, 0);
                run.ready(&file);
            }
        }
    }
}

/// A count that is too low: the entries that it leaves out are a tail, and nothing is asked of them.
pub fn low_counts(run: &mut Comparison) {
    for (id, version) in LISTS {
        for count in 1..4 {
            let payload = section(run, id, version, count).bytes;
            for low in 0..count {
                let mut payload = payload.clone();
                payload[..4].copy_from_slice(&(low as u32).to_le_bytes());
                let file = file_of(id, version, &payload);
                assert_eq!(run.file(&file).number, 0, "{low} of {count}");
                for at in 4..payload.len().min(120) {
                    let mut damaged = payload.clone();
                    damaged[at] = run.random.u8();
                    run.file(&file_of(id, version, &damaged));
                }
            }
        }
    }
}

/// Tails of every length behind META, with and without parent and label; MMU and wrappers have none.
pub fn behind_meta(run: &mut Comparison) {
    for flags in 0..4u8 {
        let mut meta = vec![3; 8];
        meta.push(flags & 1);
        meta.extend(vec![4; if flags & 1 == 1 { 8 } else { 0 }]);
        meta.extend([5; 8]);
        meta.push(flags >> 1);
        if flags >> 1 == 1 {
            meta.extend([2, 0, 0, 0, b'o', b'k']);
        }
        for length in 0..=MOST_TAIL {
            let mut with_tail = meta.clone();
            with_tail.extend(run.random.bytes(length));
            assert_eq!(run.file(&file_of(1, 1, &with_tail)).number, 0);
        }
    }
    for length in 1..=MOST_TAIL {
        let mut state = make::mmu_state(&mut run.random, 2);
        state.extend(run.random.bytes(length));
        assert_eq!(run.file(&file_of(3, 2, &state)).number, SHAPE);
        let mut wrapper = make::wrapper(&mut run.random).bytes;
        wrapper.extend(run.random.bytes(length));
        assert_eq!(run.wrapper(&wrapper).number, SHAPE);
    }
}

/// States of 1180 to 1300 bytes in CPU and CPUS, whose extension's length is right, or wrong; and wrong values in them.
pub fn longer_states(run: &mut Comparison) {
    for length in 1180..=1300usize {
        let right = (length as u32).wrapping_sub(1187);
        let mut says = vec![right, right.wrapping_add(1), right.wrapping_sub(1)];
        says.extend([0, 4, length as u32, right | 0x8000_0000, u32::MAX]);
        for says in says {
            for bad in [
                None,
                Some((144, 4)),
                Some((145, 2)),
                Some((1187, 2)),
                Some((1188, 9)),
                Some((1189, 2)),
                Some((1190, 255)),
            ] {
                let state = longer_state(run, length, says, bad);
                run.file(&file_of(2, 2, &state));
                let mut list = Made::default();
                list.number(4, 1).cpu(9, &state, b"blob");
                run.file(&file_of(7, 2, &list.bytes));
            }
        }
    }
}

fn longer_state(
    run: &mut Comparison,
    length: usize,
    says: u32,
    bad: Option<(usize, u8)>,
) -> Vec<u8> {
    let mut state = make::cpu_state(&mut run.random, 2, true);
    let more = length.saturating_sub(state.len());
    state.extend(run.random.bytes(more));
    state.truncate(length);
    if length >= 1187 {
        state[1183..1187].copy_from_slice(&says.to_le_bytes());
    }
    if let Some((at, value)) = bad.filter(|(at, _)| *at < length) {
        state[at] = value;
    }
    state
}
