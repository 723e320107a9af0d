//! Many devices at once, held to adding them one by one: number, index, place, card and every lent byte.

use differential::compare::Comparison;
use differential::damage::several;
use differential::edits::{card, lengths_on_the_way, numbers, Edit, BOUNDS};
use differential::make::{self, table, DeviceKey, Made, New};
use differential::random::Random;
use reference::answer::{CARD, CUT, HAVE, LIMIT, MANY, PAYLOAD, ROOM, SHORT, SIZE};
use reference::Edited;

const MIB: usize = 1 << 20;

/// A number under a bound, as wide as a record has it.
fn below(random: &mut Random, bound: usize) -> u64 {
    random.below(bound) as u64
}

/// A part of a second buffer of so many bytes; now and then one that lies outside of it.
fn part(random: &mut Random, store: usize) -> (u64, u64) {
    let place = random.below(store + 1);
    let length = match random.below(3) {
        0 => store - place,
        1 => random.below((store - place).min(6) + 1),
        _ => random.below(store - place + 1),
    };
    match random.below(60) {
        0 => (place as u64, (store - place) as u64 + 1),
        1 => (store as u64 + 1, 0),
        2 => (random.u64(), length as u64),
        3 => (place as u64, random.u64()),
        _ => (place as u64, length as u64),
    }
}

/// Up to `most` new devices, mostly of different keys, which the file may have.
fn entries(random: &mut Random, most: usize, store: usize) -> Vec<New> {
    let keys = make::distinct(random, most, make::device_key);
    let mut entries: Vec<New> = keys
        .into_iter()
        .map(|(id, version, flags)| {
            // Many of the files have few devices, so that most keys are new.
            let key = if random.once_in(3) { (id, version, flags) } else { (random.u32(), 1, 0) };
            let (place, length) = part(random, store);
            (key, place, length)
        })
        .collect();
    if entries.len() > 1 && random.once_in(6) {
        let (from, to) = (random.below(entries.len()), random.below(entries.len()));
        entries[to].0 = entries[from].0;
    }
    entries
}

/// Small ones.
fn few(random: &mut Random, store: usize) -> Vec<New> {
    let most = random.pick(&[1, 3, 6, 6, 40]);
    entries(random, most, store)
}

/// Tables of every kind, with part records at their ends, on valid and damaged files.
pub fn any(run: &mut Comparison) {
    for _ in 0..120_000 {
        let made = make::file(&mut run.random);
        let faults = run.random.pick(&[0, 0, 0, 0, 1, 2]);
        let file = several(&mut run.random, &made, faults);
        let length = run.random.below(50);
        let store = run.random.bytes(length);
        let mut table = table(&few(&mut run.random, length));
        if run.random.once_in(4) {
            let stray = run.random.below(24);
            table.extend(run.random.bytes(stray));
        }
        run.add_devices(&file, &table, &store);
    }
}

/// The file that a table gives, with as much room as the last one needs.
fn made(run: &mut Comparison, file: &[u8], table: &[u8], store: &[u8]) -> Result<Vec<u8>, Edited> {
    let room =
        file.len() + 20 + table.len() + lengths_on_the_way(0, table).pop().unwrap_or(0) as usize;
    let (edited, out) = run.add_devices_in(room + store.len(), file, table, store);
    match edited.number {
        0 => Ok(out[..edited.place as usize].to_vec()),
        _ => Err(edited),
    }
}

/// Every order of a small table ends in the same bytes, wherever the payloads stand, or every one is refused.
pub fn every_order(run: &mut Comparison) {
    for _ in 0..400 {
        let file = make::file(&mut run.random).bytes;
        let length = run.random.below(30);
        let store = run.random.bytes(length);
        let small = entries(&mut run.random, 5, length);
        let first = made(run, &file, &table(&small), &store).ok();
        // Other bytes before the second buffer, so that every part stands elsewhere.
        let more = length / 2;
        let other: Vec<u8> = [&store[length - more..], &store].concat();
        for order in permutations(small.len()) {
            let turned: Vec<New> = order.iter().map(|at| small[*at]).collect();
            let moved: Vec<New> = turned
                .iter()
                .map(|(key, place, length)| (*key, place.saturating_add(more as u64), *length))
                .collect();
            for (table, store) in [(table(&turned), &store), (table(&moved), &other)] {
                let last = made(run, &file, &table, store).ok();
                assert!(last == first, "another order, other bytes: input {}", run.inputs);
            }
        }
        if let Some(last) = first {
            run.file(&last);
        }
    }
}

/// All orders of the numbers below `count`.
fn permutations(count: usize) -> Vec<Vec<usize>> {
    let Some(last) = count.checked_sub(1) else { return vec![vec![]] };
    let longer = |shorter: Vec<usize>| {
        (0..count).map(move |at| {
            let mut order = shorter.clone();
            order.insert(at, last);
            order
        })
    };
    permutations(last).into_iter().flat_map(longer).collect()
}

/// Three small entries that are taken everywhere below, of keys that no file here has.
fn three() -> Vec<New> {
    vec![((0x7000_0002, 1, 0), 0, 3), ((0x7000_0001, 1, 0), 2, 0), ((0x7000_0003, 1, 0), 1, 4)]
}

/// Place and length at 0, at the ends of the second buffer, at the edges of 32, 63 and 64 bits, and where their sum wraps; in each
/// of three entries.
pub fn parts(run: &mut Comparison) {
    let file = make::file(&mut run.random).bytes;
    for length in [0, 1, 7] {
        let store = run.random.bytes(length);
        let end = length as u64;
        let mut edges = vec![0, 1, 2, 1 << 31, 1 << 32, 1 << 63, 64 << 20, (64 << 20) + 1];
        edges.extend((0..5).flat_map(|near| [end + near, (end + near).wrapping_sub(3)]));
        edges.extend((0..10).map(|near| u64::MAX - near));
        for at in 0..3 {
            for place in &edges {
                for length in &edges {
                    let mut entries = three();
                    entries.iter_mut().for_each(|entry| (entry.1, entry.2) = (0, end));
                    (entries[at].1, entries[at].2) = (*place, *length);
                    let inside = u128::from(*place) + u128::from(*length) <= u128::from(end);
                    let (edited, _) = run.add_devices(&file, &table(&entries), &store);
                    let outside = edited.number == PAYLOAD;
                    assert!(!outside || !inside && edited.index == at as u32, "{edited:?}");
                    assert!(inside || [PAYLOAD, ROOM].contains(&edited.number), "{edited:?}");
                }
            }
        }
    }
}

/// The keys of a file's devices.
fn keys_of(file: &[u8]) -> Vec<DeviceKey> {
    let mut table = vec![0; 2 * file.len() + 32];
    let answer = reference::devices(file, &mut table);
    let u16_at = |r: &[u8], at: usize| u16::from_le_bytes([r[at], r[at + 1]]);
    let key = |r: &[u8]| (u32::from_le_bytes([r[0], r[1], r[2], r[3]]), u16_at(r, 4), u16_at(r, 6));
    table[..answer.place as usize].chunks(32).map(key).collect()
}

/// A key that comes again in the table, between every two of its entries, and one that the file has, in every entry; and keys
/// beside these that differ in one number.
pub fn again(run: &mut Comparison) {
    for _ in 0..300 {
        let file = make::file(&mut run.random).bytes;
        let known = keys_of(&file);
        let store = run.random.bytes(8);
        let entries: Vec<New> =
            (0..6).map(|id| ((id * 0x0100_0001, 1, 7), below(&mut run.random, 8), 1)).collect();
        for at in 0..entries.len() {
            for from in (0..at).map(|from| entries[from].0).chain(known.iter().copied().take(3)) {
                for (key, number) in near(from) {
                    let mut entries = entries.clone();
                    entries[at].0 = key;
                    let told = made(run, &file, &table(&entries), &store);
                    if number == HAVE {
                        let refused = told.err().map(|edited| (edited.number, edited.index));
                        assert!(refused
                            .is_some_and(|(number, index)| number == HAVE && index <= at as u32));
                    }
                }
            }
        }
    }
}

/// A key, and those that differ from it in one number.
fn near((id, version, flags): DeviceKey) -> [(DeviceKey, u32); 4] {
    [
        ((id, version, flags), HAVE),
        ((id ^ 1, version, flags), 0),
        ((id, version ^ 0x100, flags), 0),
        ((id, version, flags ^ 0x8000), 0),
    ]
}

/// A part record behind none to three entries, which would be taken, or refused, if it were an entry; and a table that is cut
/// at every byte.
pub fn part_records(run: &mut Comparison) {
    for _ in 0..40 {
        let file = make::file(&mut run.random).bytes;
        let store = run.random.bytes(9);
        let mut entries = three();
        let again = entries[0].0;
        entries.push((run.random.pick(&[again, (9, 9, 9)]), run.random.pick(&[0, 90]), 1));
        let whole = table(&entries);
        for length in 0..whole.len() {
            let (edited, out) =
                run.add_devices_in(file.len() + 200, &file, &whole[..length], &store);
            assert_eq!(edited.number, 0, "a part record: input {}", run.inputs);
            let one = out[..edited.place as usize].to_vec();
            let (edited, out) =
                run.add_devices_in(file.len() + 200, &file, &whole[..length / 24 * 24], &store);
            assert!(out[..edited.place as usize] == one, "a part record: input {}", run.inputs);
        }
    }
}

/// Every room from none to more than the last file takes: the first file on the way that passes it is named.
pub fn rooms(run: &mut Comparison) {
    for _ in 0..60 {
        let file = make::file(&mut run.random).bytes;
        let store = run.random.bytes(12);
        let mut entries = three();
        let last = run.random.below(4);
        entries.truncate(last);
        for entry in &mut entries {
            entry.2 = below(&mut run.random, 8);
        }
        let table = table(&entries);
        let probe =
            reference::add_devices(&file, reference::open(&file).card, &table, &store, &mut []);
        if probe.number != ROOM {
            continue;
        }
        let lengths = lengths_on_the_way(probe.place, &table);
        for room in 0..lengths[lengths.len() - 1] + 4 {
            let (edited, _) = run.add_devices_in(room as usize, &file, &table, &store);
            let short = lengths.iter().position(|length| *length > room);
            let wanted = match short {
                Some(at) => (ROOM, at as u32, lengths[at]),
                None => (0, 0, lengths[lengths.len() - 1]),
            };
            assert_eq!((edited.number, edited.index, edited.place), wanted);
        }
    }
}

/// What makes an entry one that is refused: as PAYLOAD in two ways, as LIMIT, as HAVE, as ROOM.
const FAULTS: [fn(&mut New); 5] = [
    |entry| entry.1 = 200 << 20,
    |entry| entry.2 = u64::MAX,
    |entry| entry.2 = (64 << 20) + 1,
    |entry| entry.0 .0 = OLD,
    |entry| entry.2 = FAR,
];

/// The id of a device that a file has, and the length of a payload for which there is no room.
const OLD: u32 = 0x7000_0000;
const FAR: u64 = 5000;

/// A file with so many sections besides a device, or besides none.
fn crowded(others: u32, devices: bool) -> Vec<u8> {
    let mut made = Made::file();
    for id in 100..100 + others {
        made.section(id, 1, 0, |_| ());
    }
    if devices {
        made.section(4, 1, 0, |made| {
            made.number(4, 1).device((OLD, 1, 0), b"old").raw(b"tail");
        });
    }
    made.bytes
}

/// Every two faults, in one entry or in two, and those of the file before them: the first entry's first fault is told.
pub fn two_faults(run: &mut Comparison) {
    let store = vec![7; 64 * MIB + 8];
    let files = [crowded(3, true), crowded(63, true), crowded(64, false), crowded(63, false)];
    for spoil in FAULTS {
        for also in FAULTS {
            for (one, other) in (0..9).map(|at| (at / 3, at % 3)) {
                let mut entries = three();
                spoil(&mut entries[one]);
                also(&mut entries[other]);
                let table = table(&entries);
                for (at, file) in files.iter().enumerate() {
                    let (edited, _) = run.add_devices_in(2000, file, &table, &store);
                    let wanted = first_fault(&entries, store.len(), at < 2, at == 2);
                    assert_eq!((edited.number, edited.index as usize), wanted, "{entries:?}");
                }
                for (file, number) in [(&files[0][..15], SHORT), (&files[0][..20], CUT)] {
                    let (edited, _) = run.add_devices_in(2000, file, &table, &store);
                    assert_eq!((edited.number, edited.index), (number, 0));
                }
            }
        }
    }
}

/// What is told of spoilt entries, of which one at least is; by whether the file has the device of `FAULTS`, and no room for a section.
fn first_fault(entries: &[New], store: usize, has: bool, full: bool) -> (u32, usize) {
    for (at, (key, place, length)) in entries.iter().enumerate() {
        let end = u128::from(*place) + u128::from(*length);
        let again = entries[..at].iter().any(|earlier| earlier.0 == *key);
        let number = match () {
            () if end > store as u128 => PAYLOAD,
            () if *length > 64 << 20 => LIMIT,
            () if again || has && key.0 == OLD => HAVE,
            () if full => MANY,
            () if *length == FAR => ROOM,
            () => continue,
        };
        return (number, at);
    }
    (0, 0)
}

/// Cards of which each number is near each of its bounds, before the edit or behind it, alone; the whole change is asked, not
/// that of an entry, and a table with no entry is asked too.
pub fn untrue_cards(run: &mut Comparison) {
    for _ in 0..250 {
        let file = make::file(&mut run.random).bytes;
        let store = run.random.bytes(20);
        let mut entries = entries(&mut run.random, 4, 20);
        if run.random.once_in(5) {
            entries.clear();
        }
        let table = table(&entries);
        let edit = Edit::AddDevices(&table, &store);
        let truth = run.open(&file);
        let (made, _) = run.add_devices_in(file.len() + 300, &file, &table, &store);
        for at in 0..4 {
            let (before, after) = (numbers(truth)[at], numbers(made.card)[at]);
            let (low, high) = BOUNDS[at];
            for edge in [0, low, high, 1 << 63, u64::MAX] {
                for near in [u64::MAX - 1, u64::MAX, 0, 1, 2] {
                    for moved in [0, after.wrapping_sub(before), 16] {
                        let mut changed = numbers(truth);
                        changed[at] = edge.wrapping_sub(moved).wrapping_add(near);
                        run.inputs += 1;
                        let edited = run.edit_beside_untrue(&file, card(changed), edit, made);
                        assert!(edited.number != CARD || edited.index == 0);
                    }
                }
            }
        }
    }
}

/// A file with these devices, as many bytes of tail as are asked for, and RAM behind it.
fn with_devices(ids: &[u32], tail: usize) -> Vec<u8> {
    let mut made = Made::file();
    made.section(4, 1, 0, |made| {
        made.number(4, ids.len() as u64);
        for id in ids {
            made.device((*id, 1, 0), &id.to_le_bytes()[..*id as usize % 3]);
        }
        made.raw(&vec![0xEE; tail]);
    });
    made.section(6, 1, 0, |made| {
        made.raw(b"RAM");
    });
    made.bytes
}

/// In which order the entries of a table come.
#[derive(Clone, Copy)]
enum Order {
    Ascending,
    Descending,
    Mixed,
}

const ORDERS: [Order; 3] = [Order::Ascending, Order::Descending, Order::Mixed];

/// A file with `old` devices, in the order of their keys or in none, and `new` entries of other keys, before, between and behind
/// these.
fn meeting(random: &mut Random, new: usize, old: usize, order: Order) -> (Vec<u8>, Vec<New>) {
    let mut ids: Vec<u32> = (0..(new + old) as u32).map(|id| 10 * id).collect();
    random.shuffle(&mut ids);
    let (there, come) = ids.split_at_mut(old);
    if random.once_in(2) {
        there.sort_unstable();
    }
    match order {
        Order::Ascending => come.sort_unstable(),
        Order::Descending => come.sort_unstable_by(|one, next| next.cmp(one)),
        Order::Mixed => (),
    }
    let file = with_devices(there, random.below(2) * 9);
    let entry = |id: &u32| ((*id, 1, 0), below(random, 290), below(random, 11));
    (file, come.iter().map(entry).collect())
}

/// A table of so many entries beside so many devices: what is told of it, and of one in which the last entry that is looked at has
/// the key of another.
fn count(run: &mut Comparison, new: usize, old: usize, order: Order) {
    let store = run.random.bytes(300);
    let (file, mut entries) = meeting(&mut run.random, new, old, order);
    let room = file.len() + 28 * entries.len() + 40;
    let (edited, _) = run.add_devices_in(room, &file, &table(&entries), &store);
    let wanted = if new + old > 4096 { (LIMIT, 4096 - old) } else { (0, 0) };
    assert_eq!((edited.number, edited.index as usize), wanted);
    let last = new.min(4097 - old) - 1;
    if last > 0 {
        entries[last].0 = entries[run.random.below(last)].0;
        let (edited, _) = run.add_devices_in(room, &file, &table(&entries), &store);
        assert_eq!((edited.number, edited.index as usize), (HAVE, last));
    }
}

/// Tables and lists from one entry to hundreds, in three orders, with any room.
pub fn hundreds(run: &mut Comparison) {
    for new in [1, 2, 3, 31, 32, 33, 34, 64, 255, 256, 257, 300] {
        for old in [0, 1, 2, 31, 32, 33, 255, 256, 257] {
            for order in ORDERS {
                count(run, new, old, order);
                let (file, entries) = meeting(&mut run.random, new, old, order);
                let store = run.random.bytes(300);
                run.add_devices(&file, &table(&entries), &store);
            }
        }
    }
}

/// As many entries as a list may have and one more, in three orders, beside none and beside thousands that are there; and a table
/// that is longer still.
pub fn thousands(run: &mut Comparison) {
    let both = [(4096, 0), (4097, 0), (2048, 2048), (2048, 2049), (1, 4095), (1, 4096), (4100, 40)];
    for order in ORDERS {
        for (new, old) in both {
            count(run, new, old, order);
        }
        let (file, entries) = meeting(&mut run.random, 4096, 0, order);
        let store = run.random.bytes(300);
        run.add_devices(&file, &table(&entries), &store);
    }
}

/// Payloads about 64 MiB, DEVICES about 256 MiB, and files about 1024 MiB, at the second entry as at the first.
pub fn longest(run: &mut Comparison) {
    run.exact = true;
    long_payloads(run);
    long_sections(run);
    long_files(run);
    run.exact = false;
}

fn long_payloads(run: &mut Comparison) {
    let store = vec![0xA3; 64 * MIB + 1];
    let most = 64 << 20;
    let file = Made::file().bytes;
    let (first, second) = ((2, 1, 0), (1, 1, 0));
    for (entries, wanted) in [
        (vec![(first, 1, most)], (0, 0)),
        (vec![(first, 0, most + 1)], (LIMIT, 0)),
        (vec![(first, 0, 3), (second, 0, most + 1)], (LIMIT, 1)),
        (vec![(first, 0, 3), (first, 0, most + 1)], (LIMIT, 1)),
        (vec![(first, 0, 3), (second, 1, most + 1)], (PAYLOAD, 1)),
        (vec![(first, 0, 3), (second, 0, most)], (0, 0)),
    ] {
        let (edited, _) = run.add_devices_in(64 * MIB + 200, &file, &table(&entries), &store);
        assert_eq!((edited.number, edited.index), wanted);
    }
}

/// Five payloads of nearly 64 MiB, which are all one part: the fourth and what is left fill DEVICES, with a tail or without.
fn long_sections(run: &mut Comparison) {
    let part = 64 * MIB - 100;
    let store = vec![0xA4; part];
    for tail in [0, 8] {
        let file = with_devices(&[], tail);
        let mut entries: Vec<New> = (1..5).map(|id| ((id, 1, 0), 0, part as u64)).collect();
        let left = (400 - 4 - 5 * 16 - tail) as u64;
        for (last, wanted) in [(left, (0, 0)), (left + 1, (LIMIT, 4))] {
            entries.push(((9, 1, 0), 5, last));
            let (edited, _) = run.add_devices_in(257 * MIB, &file, &table(&entries), &store);
            assert_eq!((edited.number, edited.index), wanted);
            entries.pop();
        }
        entries.push(((4, 1, 0), 5, left + 1));
        let (edited, _) = run.add_devices_in(257 * MIB, &file, &table(&entries), &store);
        assert_eq!((edited.number, edited.index), (HAVE, 4));
    }
}

/// A file of nearly 1024 MiB, with room for one entry more and not for two.
fn long_files(run: &mut Comparison) {
    let most = 1024 * MIB;
    let mut file = Made::file().bytes;
    file.extend([6, 0, 0, 0, 1, 0, 0, 0]);
    let ram = most - 16 - 16 - 20 - 20;
    file.extend((ram as u64).to_le_bytes());
    file.resize(32 + ram, 0xA5);
    let store = [7; 8];
    let entry = |id, length| ((id, 1, 0), 0, length);
    for (entries, room, wanted) in [
        (vec![entry(1, 5)], 0, (SIZE, 0)),
        (vec![entry(1, 4)], 0, (ROOM, 0)),
        (vec![entry(1, 4), entry(2, 0)], most, (SIZE, 1)),
        (vec![entry(1, 4)], most, (0, 0)),
    ] {
        let (edited, _) = run.add_devices_in(room, &file, &table(&entries), &store);
        assert_eq!((edited.number, edited.index), wanted);
    }
}
