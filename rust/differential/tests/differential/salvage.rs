//! Salvage: damaged files, what is kept of them and what is lost.

use differential::compare::Comparison;
use differential::damage::{extremes, set, several};
use differential::make::{self, Made};
use differential::random::Random;
use differential::salvage::{Loss, LOSS};
use reference::Salvaged;

/// A file of some 400 bytes with sections of most sorts, a list with no entries, and ids that are carried.
fn rich(random: &mut Random) -> Made {
    let mut made = Made::file();
    made.section(9, 7, 3, |made| {
        made.raw(b"other");
    });
    made.section(8, 1, 0, |made| {
        made.number(4, 1).mmu(3, &random.bytes(68));
    });
    made.section(5, 1, 0, |made| {
        made.number(4, 2).disk(256, "b\u{E4}se".as_bytes(), b"").disk(1, b"x", b"y");
    });
    made.section(7, 1, 0, |made| {
        made.number(4, 0);
    });
    made.section(4, 1, 0, |made| {
        made.number(4, 3);
        made.device((14, 1, 0), &[0x11]).device((3, 1, 256), b"").device((3, 1, 1), b"two");
    });
    made.section(1, 1, 0, |made| {
        made.number(8, 77).number(1, 0).number(8, 1_700_000_000_000);
        made.number(1, 1).sized(4, "caf\u{E9}".as_bytes());
    });
    made.section(6, 1, 0, |made| {
        made.raw(b"ram");
    });
    made.section(9, 7, 3, |_| {});
    made
}

/// Files of some 1500 bytes with one state of a CPU and of an MMU, or with lists of them.
fn with_states(random: &mut Random) -> [Made; 2] {
    let (cpu, cpus) = (make::cpu_state(random, 2, true), make::cpu_state(random, 1, false));
    let mut one = Made::file();
    one.section(2, 2, 0, |made| {
        made.cpu_state(&cpu);
    });
    one.section(3, 2, 0, |made| {
        made.raw(&make::mmu_state(random, 2));
    });
    let mut lists = Made::file();
    lists.section(7, 1, 0, |made| {
        made.number(4, 2).cpu(256, &cpus, b"blob").cpu(1, &cpus, b"");
    });
    lists.section(8, 2, 0, |made| {
        made.number(4, 1).mmu(9, &make::mmu_state(random, 2));
    });
    [one, lists]
}

pub fn valid(run: &mut Comparison) {
    for _ in 0..20_000 {
        let file = make::file(&mut run.random).bytes;
        let (_, losses) = run.salvaged(&file).expect("a file that was made to be valid");
        assert_eq!(losses, []);
    }
}

/// Every length, with the bytes that were cut off still standing behind the end.
pub fn every_cut(run: &mut Comparison) {
    let [one, lists] = with_states(&mut run.random);
    for made in [rich(&mut run.random), one, lists] {
        for length in 0..=made.bytes.len() {
            run.salvaged(&made.bytes[..length]);
        }
    }
}

/// Every value of every byte of the rich file, some values of every byte of those with states.
pub fn every_byte(run: &mut Comparison) {
    let all: Vec<u8> = (1..=255).collect();
    let rich = rich(&mut run.random);
    change_every_byte(run, &rich.bytes, &all);
    for made in with_states(&mut run.random) {
        change_every_byte(run, &made.bytes, &[1, 0x80, 0xFF]);
    }
}

fn change_every_byte(run: &mut Comparison, bytes: &[u8], changes: &[u8]) {
    let mut file = bytes.to_vec();
    for place in 0..file.len() {
        for change in changes {
            file[place] ^= change;
            run.salvaged(&file);
            file[place] ^= change;
        }
    }
}

pub fn every_extreme(run: &mut Comparison) {
    let [one, lists] = with_states(&mut run.random);
    for made in [rich(&mut run.random), one, lists] {
        for field in &made.fields {
            for value in extremes(*field, made.bytes.len()) {
                let mut file = made.bytes.clone();
                set(&mut file, *field, value);
                run.salvaged(&file);
            }
        }
    }
}

/// Any two numbers of the rich file wrong at once, each in three ways, and any two of its bytes.
pub fn two_faults(run: &mut Comparison) {
    let made = rich(&mut run.random);
    for (at, one) in made.fields.iter().enumerate() {
        for other in &made.fields[at + 1..] {
            for first in [0, 2, u64::MAX] {
                for second in [0, 2, u64::MAX] {
                    let mut file = made.bytes.clone();
                    set(&mut file, *one, first);
                    set(&mut file, *other, second);
                    run.salvaged(&file);
                }
            }
        }
    }
    for _ in 0..40_000 {
        let mut file = made.bytes.clone();
        for _ in 0..2 {
            let place = 16 + run.random.below(file.len() - 16);
            file[place] ^= 1 << run.random.below(8);
        }
        run.salvaged(&file);
    }
}

pub fn damaged(run: &mut Comparison) {
    for _ in 0..100_000 {
        let made = make::file(&mut run.random);
        let faults = 1 + run.random.below(6);
        let mut file = several(&mut run.random, &made, faults);
        // The header is what every file has; most faults should stand behind it.
        if !run.random.once_in(8) {
            let length = file.len().min(16);
            file[..length].copy_from_slice(&made.bytes[..length]);
        }
        run.salvaged(&file);
    }
}

/// The sections of several files, some broken: which of two is kept depends on those before.
pub fn joined(run: &mut Comparison) {
    for _ in 0..40_000 {
        let mut file = Made::file().bytes;
        for _ in 0..2 + run.random.below(3) {
            let other = make::file(&mut run.random);
            let faults = run.random.pick(&[0, 0, 1]);
            let sections = several(&mut run.random, &other, faults);
            file.extend(sections.iter().skip(16));
        }
        run.salvaged(&file);
    }
}

/// A section of this id with no payload, of a version that only ids that are carried have.
fn bare(made: &mut Made, id: u32) {
    made.section(id, 9, 0, |_| {});
}

/// From 60 sections to 80, broken ones among them, and at the end nothing, a header that is cut, a payload that is cut, or
/// stray bytes. Without broken ones the 65th and all behind it are lost, or are the stop.
pub fn crowded(run: &mut Comparison) {
    for count in 60..80usize {
        for end in 0..20 {
            let mut made = Made::file();
            (0..count).for_each(|at| bare(&mut made, 16 + at as u32));
            let stray = vec![0xFF; end];
            let file = [made.bytes, stray].concat();
            let (kept, losses) = run.salvaged(&file).expect("a header");
            assert_eq!(kept.len(), 16 + 16 * count.min(64));
            let mut wanted: Vec<Loss> =
                (64..count).map(|at| Loss { start: 16 + 16 * at, bytes: 16, number: 8 }).collect();
            if end > 0 {
                wanted.push(Loss { start: 16 + 16 * count, bytes: end, number: 7 });
            }
            assert_eq!(losses, wanted);
        }
    }
    for _ in 0..20_000 {
        let mut made = Made::file();
        for _ in 0..60 + run.random.below(30) {
            // Ids up to 8 are broken: none of them has version 9.
            let most = run.random.pick(&[9, 16, 300, 300, 300]);
            let id = run.random.below(most) as u32;
            bare(&mut made, id);
        }
        let other = make::file(&mut run.random);
        let faults = run.random.pick(&[0, 0, 1]);
        let sections = several(&mut run.random, &other, faults);
        let mut file = made.bytes;
        file.extend(sections.iter().skip(16));
        run.salvaged(&file);
    }
}

/// Files of thousands of small broken sections, some good ones among them: losses have no bound, and their records are more
/// bytes than the file has.
pub fn thousands(run: &mut Comparison) {
    for count in [1, 2, 63, 64, 65, 1000, 4096, 4864, 4865, 20_000, 100_000] {
        let mut made = Made::file();
        (0..count).for_each(|_| bare(&mut made, 6));
        let (kept, losses) = run.salvaged(&made.bytes).expect("a header");
        assert_eq!((kept.len(), losses.len()), (16, count));
        assert!(losses.iter().all(|loss| (loss.bytes, loss.number) == (16, 10)));
    }
    for _ in 0..200 {
        let good = rich(&mut run.random);
        let mut file = Made::file().bytes;
        for _ in 0..1 + run.random.below(6) {
            let mut broken = Made::default();
            for _ in 0..run.random.below(2000) {
                let id = 1 + run.random.below(8) as u32;
                bare(&mut broken, id);
            }
            file.extend(broken.bytes);
            file.extend(&good.bytes[16..]);
        }
        let end = file.len() - run.random.below(20);
        run.salvaged(&file[..end]);
    }
}

/// Every length of both outputs about what is needed: the file's is asked first.
pub fn rooms(run: &mut Comparison) {
    let good = rich(&mut run.random).bytes;
    let mut twice = good.clone();
    twice.extend(&good[16..60]);
    let mut broken = Made::file();
    (0..5).for_each(|at| bare(&mut broken, 1 + at));
    for file in [Made::file().bytes, good, twice, broken.bytes] {
        let (kept, losses) = run.salvaged(&file).expect("a header");
        let (kept, lost) = (kept.len(), LOSS * losses.len());
        let about = |needed: usize| {
            [0, 1, needed / 2, needed.saturating_sub(24), needed.saturating_sub(1)]
                .into_iter()
                .chain(needed..=needed + 25)
        };
        for room in about(kept) {
            for records in about(lost) {
                run.inputs += 1;
                let answer = run.salvage_in(&file, room, records);
                let (number, place, count) = match (room < kept, records < lost) {
                    (true, _) => (16, kept, 0),
                    (_, true) => (16, lost, 0),
                    _ => (0, kept, losses.len()),
                };
                let wanted = Salvaged { number, place: place as u64, losses: count as u64 };
                assert_eq!(answer, wanted);
            }
        }
    }
}

/// A file of 1024 MiB and one of a byte more, whose only section is broken; and some MiB that are kept behind a loss.
pub fn long(run: &mut Comparison) {
    const MOST: usize = 1024 << 20;
    let mut head = Made::file();
    head.section(6, 2, 0, |_| {});
    let mut file = vec![0; MOST + 1];
    file[..32].copy_from_slice(&head.bytes);
    file[24..32].copy_from_slice(&(MOST as u64 - 32).to_le_bytes());
    for (length, number) in [(MOST, 0), (MOST + 1, 6), (MOST - 1, 0)] {
        run.inputs += 1;
        let answer = run.salvage_in(&file[..length], 16, LOSS);
        assert_eq!((answer.number, answer.losses), (number, u64::from(number == 0)));
    }
    drop(file);
    let mut made = Made::file();
    bare(&mut made, 4);
    let payload = run.random.bytes(3 << 20);
    made.section(6, 1, 0, |made| {
        made.raw(&payload);
    });
    bare(&mut made, 5);
    let (kept, losses) = run.salvaged(&made.bytes).expect("a header");
    assert_eq!((kept.len(), losses.len()), (32 + payload.len(), 2));
}
