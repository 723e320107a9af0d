//! How many sections, devices, disks, CPUs, MMUs and controllers there may be.

use differential::compare::Comparison;
use differential::make::{self, Made};

use super::{empty_list, expect, file_of, HAVE, LIMIT, MANY, TEXT};

pub fn all(run: &mut Comparison) {
    sections(run);
    devices(run);
    disks(run);
    cpus(run);
    mmus(run);
    controllers(run);
}

/// So many sections with ids from `first` on.
fn of_sections(count: u32, first: u32) -> Vec<u8> {
    let mut made = Made::file();
    for id in first..first + count {
        made.section(id, 1, 0, |_| {});
    }
    made.bytes
}

fn sections(run: &mut Comparison) {
    for _ in 0..20 {
        expect(run.file(&of_sections(64, 9)), 0, 0);
        expect(run.file(&of_sections(65, 9)), MANY, 16 + 64 * 16);
    }
    run.exact = true;
    let written = 16 + 63 * 16 + 16 + 4;
    let (of_63, of_64) = (of_sections(63, 9), of_sections(64, 9));
    expect(run.add_device(&of_63, (1, 1, 0), b"").0, 0, written + 16);
    expect(run.add_disk(&of_63, 1, b"", b"").0, 0, written + 12);
    expect(run.add_device(&of_64, (1, 1, 0), b"").0, MANY, 0);
    expect(run.add_disk(&of_64, 1, b"", b"").0, MANY, 0);
    // An entry that is wrong in itself comes before MANY.
    expect(run.add_disk(&of_64, 1, b"\xFF", b"").0, TEXT, 0);
    expect(run.add_disk(&of_64, 1, &[0xFF; 65_537], b"").0, LIMIT, 0);
    // Of 64 sections one is an empty list, of devices or of another sort: there is room for one.
    for id in [4, 5, 7, 8] {
        let file = [of_63.clone(), empty_list(id)].concat();
        expect(run.add_device(&file, (1, 1, 0), b"").0, 0, written + 16);
        expect(run.add_disk(&file, 1, b"", b"").0, 0, written + 12);
    }
    run.exact = false;
}

/// Numbers that come as keys in descending, ascending and mixed order.
fn orders(count: u32) -> [Vec<u32>; 3] {
    let mixed = (0..count).map(|at| at.wrapping_mul(0x9E37_79B1)).collect();
    [(0..count).rev().collect(), (0..count).collect(), mixed]
}

fn of_devices(keys: &[u32]) -> Vec<u8> {
    file_of(4, 1, |made| {
        made.number(4, keys.len() as u64);
        for key in keys {
            made.device((*key, 1, 0), &[]);
        }
    })
}

fn devices(run: &mut Comparison) {
    for keys in orders(4096) {
        let full = of_devices(&keys);
        expect(run.file(&full), 0, 0);
        expect(run.add_device(&full, (keys[7], 1, 0), b"").0, HAVE, 0);
        expect(run.add_device(&full, (keys[7], 2, 0), b"").0, LIMIT, 0);
        run.exact = true;
        let (answer, _) = run.add_device(&of_devices(&keys[1..]), (keys[0], 1, 0), b"");
        expect(answer, 0, full.len());
        run.exact = false;
    }
    for keys in orders(4097) {
        expect(run.file(&of_devices(&keys)), LIMIT, 32);
    }
}

fn of_disks(keys: &[u32]) -> Vec<u8> {
    file_of(5, 1, |made| {
        made.number(4, keys.len() as u64);
        for key in keys {
            made.disk(*key, b"base", b"");
        }
    })
}

fn disks(run: &mut Comparison) {
    for keys in orders(256) {
        let full = of_disks(&keys);
        expect(run.file(&full), 0, 0);
        expect(run.add_disk(&full, keys[7], b"", b"").0, HAVE, 0);
        expect(run.add_disk(&full, 0x7654_3211, b"", b"").0, LIMIT, 0);
        run.exact = true;
        let (answer, _) = run.add_disk(&of_disks(&keys[1..]), keys[0], b"base", b"");
        expect(answer, 0, full.len());
        run.exact = false;
    }
    for keys in orders(257) {
        expect(run.file(&of_disks(&keys)), LIMIT, 32);
    }
}

fn cpus(run: &mut Comparison) {
    for (version, extended) in [(1, false), (2, false), (2, true)] {
        let state = make::cpu_state(&mut run.random, version, extended);
        let of = |keys: &[u32]| {
            file_of(7, version, |made| {
                made.number(4, keys.len() as u64);
                for key in keys {
                    made.cpu(*key, &state, &key.to_le_bytes());
                }
            })
        };
        for keys in orders(257) {
            expect(run.file(&of(&keys[1..])), 0, 0);
            expect(run.file(&of(&keys)), LIMIT, 32);
        }
    }
}

fn mmus(run: &mut Comparison) {
    for version in [1, 2] {
        let state = make::mmu_state(&mut run.random, version);
        let of = |keys: &[u32]| {
            file_of(8, version, |made| {
                made.number(4, keys.len() as u64);
                for key in keys {
                    made.mmu(*key, &state);
                }
            })
        };
        for keys in orders(257) {
            expect(run.file(&of(&keys[1..])), 0, 0);
            expect(run.file(&of(&keys)), LIMIT, 32);
        }
    }
}

fn controllers(run: &mut Comparison) {
    let of = |keys: &[u32]| {
        let mut made = Made::wrapper(keys.len() as u32);
        for key in keys {
            made.controller((*key as u16).wrapping_mul(257), b"AHCP", &key.to_le_bytes());
        }
        made.bytes
    };
    for keys in orders(257) {
        expect(run.wrapper(&of(&keys[1..])), 0, 0);
        expect(run.wrapper(&of(&keys)), LIMIT, 16);
    }
}
