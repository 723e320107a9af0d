//! Lists in every order and version: a record's position is the entry's number in the file, whatever the keys are.

use differential::compare::Comparison;
use differential::make::{cpu_state, mmu_state, Made};

/// A file of devices and disks with these ids, in this order, and a wrapper of controllers with them.
fn compare(run: &mut Comparison, ids: &[u32]) {
    let mut made = Made::file();
    made.section(4, 1, 0, |made| {
        made.number(4, ids.len() as u64);
        for id in ids {
            made.device((*id, 1, 0), &[7; 3][..*id as usize % 4]);
        }
    });
    if ids.len() <= 256 {
        made.section(5, 1, 0, |made| {
            made.number(4, ids.len() as u64);
            for id in ids {
                made.disk(*id, &b"base"[..*id as usize % 5], b"over");
            }
        });
        let mut wrapper = Made::wrapper(ids.len() as u32);
        for id in ids {
            wrapper.controller(*id as u16, b"AHCI", &[9; 2][..*id as usize % 3]);
        }
        run.wrapper(&wrapper.bytes);
    }
    run.file(&made.bytes);
}

/// Files of CPUs and of MMUs with these APIC ids, in this order, in each version; of version 2 with states of both lengths.
fn compare_states(run: &mut Comparison, ids: &[u32]) {
    for version in [1, 2] {
        let mut made = Made::file();
        made.section(7, version, 0, |made| {
            made.number(4, ids.len() as u64);
            for id in ids {
                let state = cpu_state(&mut run.random, version, id % 3 == 1);
                made.cpu(*id, &state, &[7; 8][..*id as usize % 9]);
            }
        });
        made.section(8, 3 - version, 0, |made| {
            made.number(4, ids.len() as u64);
            for id in ids {
                made.mmu(*id, &mmu_state(&mut run.random, 3 - version));
            }
        });
        run.file(&made.bytes);
    }
}

/// CPUs and MMUs: every order of up to five, with a key that comes twice, around each number of places, and single states beside them.
pub fn states(run: &mut Comparison) {
    for count in 0..=5 {
        let mut ids: Vec<u32> = (0..count).map(|id| id * 100).collect();
        permuted(&mut ids, 0, &mut |ids| compare_states(run, ids));
    }
    let mut twice = [1, 2, 3, 2];
    permuted(&mut twice, 0, &mut |ids| compare_states(run, ids));
    for count in [31, 32, 33, 255, 256, 257] {
        let mut ids: Vec<u32> = (0..count).map(|id| id * 3 + 1).collect();
        compare_states(run, &ids);
        ids.reverse();
        compare_states(run, &ids);
        run.random.shuffle(&mut ids);
        compare_states(run, &ids);
    }
    for version in [1, 2] {
        for extended in [false, true] {
            let mut made = Made::file();
            let state = cpu_state(&mut run.random, version, extended);
            made.section(2, version, 0, |made| {
                made.cpu_state(&state);
            });
            let state = mmu_state(&mut run.random, version);
            made.section(3, version, 0, |made| {
                made.raw(&state);
            });
            run.file(&made.bytes);
        }
    }
}

/// Calls `each` with every order of `ids`, by exchanging from place `at` on.
fn permuted(ids: &mut [u32], at: usize, each: &mut impl FnMut(&[u32])) {
    if at == ids.len() {
        return each(ids);
    }
    for other in at..ids.len() {
        ids.swap(at, other);
        permuted(ids, at + 1, each);
        ids.swap(at, other);
    }
}

/// Every order of up to seven entries, and with a key that comes twice.
pub fn few(run: &mut Comparison) {
    for count in 0..=7 {
        let mut ids: Vec<u32> = (0..count).map(|id| id * 100).collect();
        permuted(&mut ids, 0, &mut |ids| compare(run, ids));
    }
    let mut twice = [1, 2, 3, 4, 2];
    permuted(&mut twice, 0, &mut |ids| compare(run, ids));
}

/// Around each number of places that the starts in file order are kept in: ascending, descending, turned by one, shuffled, and with a key twice.
pub fn many(run: &mut Comparison) {
    for count in [31, 32, 33, 255, 256, 257, 1000, 4095, 4096] {
        let mut ids: Vec<u32> = (0..count).map(|id| id * 3 + 1).collect();
        compare(run, &ids);
        ids.rotate_left(1);
        compare(run, &ids);
        ids.rotate_right(1);
        ids.reverse();
        compare(run, &ids);
        for _ in 0..20 {
            run.random.shuffle(&mut ids);
            compare(run, &ids);
        }
        ids[0] = ids[ids.len() - 1];
        compare(run, &ids);
    }
}
