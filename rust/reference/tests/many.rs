//! Many devices at once: what the rules say by hand, and the two ways to compute it beside each other.

use reference::answer::{CARD, CUT, HAVE, LIMIT, MANY, PAYLOAD, ROOM, SHORT};
use reference::{add_devices, add_devices_in_one_pass, open, Card, Edited};

const EMPTY: &[u8] = b"AEROSNAP\x01\0\x01\0\0\0\0\0";

/// P4: devices 14 and 3, in descending order of their keys.
const TWO_DEVICES: &[u8] = b"AEROSNAP\x01\0\x01\0\0\0\0\0\
    \x04\0\0\0\x01\0\0\0\x27\0\0\0\0\0\0\0\
    \x02\0\0\0\
    \x0E\0\0\0\x01\0\0\0\x01\0\0\0\0\0\0\0\x11\
    \x03\0\0\0\x01\0\0\0\x02\0\0\0\0\0\0\0\xAB\xCD";

/// A record: the key's three numbers, place and length.
fn record((id, version, flags): (u32, u16, u16), place: u64, length: u64) -> Vec<u8> {
    let mut record = id.to_le_bytes().to_vec();
    record.extend([version, flags].map(u16::to_le_bytes).as_flattened());
    record.extend([place, length].map(u64::to_le_bytes).as_flattened());
    record
}

fn table(records: &[(u32, u64, u64)]) -> Vec<u8> {
    records.iter().flat_map(|(id, place, length)| record((*id, 1, 0), *place, *length)).collect()
}

/// Both ways, beside a card and with a room: the same answer and the same bytes, and no byte where it is refused.
fn both(file: &[u8], card: Card, table: &[u8], store: &[u8], room: usize) -> (Edited, Vec<u8>) {
    let (mut one, mut other) = (vec![0xEE; room], vec![0xEE; room]);
    let edited = add_devices(file, card, table, store, &mut one);
    let passed = add_devices_in_one_pass(file, card, table, store, &mut other);
    assert_eq!((passed, &other), (edited, &one), "{file:02X?} {table:02X?}");
    let written = if edited.number == 0 { edited.place as usize } else { 0 };
    assert!(one[written..].iter().all(|byte| *byte == 0xEE), "written beside {written} bytes");
    assert!(edited.number == 0 || edited.card == card, "a refusal moves the card");
    one.truncate(written);
    (edited, one)
}

/// Number, index and place beside the true card, with so much room.
fn told(file: &[u8], table: &[u8], store: &[u8], room: usize) -> (u32, u32, u64) {
    let (edited, _) = both(file, open(file).card, table, store, room);
    (edited.number, edited.index, edited.place)
}

#[test]
fn two_devices_at_once_are_p5() {
    let store = [0xAB, 0xCD, 0x11];
    let truth = open(EMPTY).card;
    let (edited, made) = both(EMPTY, truth, &table(&[(14, 2, 1), (3, 0, 2)]), &store, 71);
    assert_eq!((edited.number, edited.index, edited.place), (0, 0, 71));
    assert_eq!(edited.card, open(&made).card);
    let (_, form) = both(TWO_DEVICES, open(TWO_DEVICES).card, &[], &[], 71);
    assert_eq!(made, form);
    let (_, other) = both(EMPTY, truth, &table(&[(3, 0, 2), (14, 2, 1)]), &store, 71);
    assert_eq!(other, made);
}

#[test]
fn each_refusal_names_its_entry() {
    let store = [7; 10];
    let asked =
        |records: &[(u32, u64, u64)], room| told(TWO_DEVICES, &table(records), &store, room);
    assert_eq!(asked(&[(5, 0, 10), (6, 10, 0), (7, 11, 0)], 500), (PAYLOAD, 2, 0));
    assert_eq!(asked(&[(5, 0, 11)], 500), (PAYLOAD, 0, 0));
    assert_eq!(asked(&[(5, u64::MAX, 2)], 500), (PAYLOAD, 0, 0));
    assert_eq!(asked(&[(5, 1, u64::MAX)], 500), (PAYLOAD, 0, 0));
    assert_eq!(asked(&[(5, 0, 1), (3, 0, 1)], 500), (HAVE, 1, 0));
    assert_eq!(asked(&[(5, 0, 1), (6, 0, 1), (5, 9, 1)], 500), (HAVE, 2, 0));
    assert_eq!(asked(&[(5, 0, 1), (5, 0, 11)], 500), (PAYLOAD, 1, 0));
    // Each file on the way is asked for its room.
    assert_eq!(asked(&[(5, 0, 1), (6, 0, 2)], 71 + 16), (ROOM, 0, 88));
    assert_eq!(asked(&[(5, 0, 1), (6, 0, 2)], 88), (ROOM, 1, 106));
    assert_eq!(asked(&[(5, 0, 1), (6, 0, 2)], 106), (0, 0, 106));
    assert_eq!(asked(&[(5, 0, 1), (5, 0, 2)], 87), (ROOM, 0, 88));
    assert_eq!(asked(&[], 70), (ROOM, 0, 71));
    assert_eq!(asked(&[], 71), (0, 0, 71));
    // The file's own faults come first.
    assert_eq!(told(&EMPTY[..15], &table(&[(5, 99, 99)]), &store, 500), (SHORT, 0, 0));
    assert_eq!(told(&TWO_DEVICES[..70], &[], &store, 500), (CUT, 0, 16));
    // A part record is no entry.
    let mut stray = table(&[(5, 0, 1)]);
    stray.extend(&table(&[(5, 0, 1)])[..23]);
    assert_eq!(told(TWO_DEVICES, &stray, &store, 500), (0, 0, 88));
    assert_eq!(told(TWO_DEVICES, &stray[24..], &store, 500), (0, 0, 71));
}

#[test]
fn counts_and_lengths_have_their_bounds() {
    let all: Vec<(u32, u64, u64)> = (0..4097).map(|id| (id * 7 % 4099, 0, 0)).collect();
    assert_eq!(told(EMPTY, &table(&all[..4096]), &[], 1 << 17), (0, 0, 36 + 16 * 4096));
    assert_eq!(told(EMPTY, &table(&all), &[], 1 << 17), (LIMIT, 4096, 0));
    let mut again = all.clone();
    again[4096].0 = again[17].0;
    assert_eq!(told(EMPTY, &table(&again), &[], 1 << 17), (HAVE, 4096, 0));
    let store = vec![0; (64 << 20) + 1];
    let long = |length| table(&[(1, 0, 1), (2, 0, length)]);
    assert_eq!(told(EMPTY, &long(store.len() as u64), &store, 100), (LIMIT, 1, 0));
    assert_eq!(told(EMPTY, &long(64 << 20), &store, 100), (ROOM, 1, 16 + 36 + 1 + 16 + (64 << 20)));
    let mut sections = EMPTY.to_vec();
    for id in 0..64u8 {
        sections.extend([100 + id, 0, 0, 0, 1, 0, 0, 0, 0, 0, 0, 0, 0, 0, 0, 0]);
    }
    assert_eq!(told(&sections, &long(1), &store, 5000), (MANY, 0, 0));
    assert_eq!(told(&sections[..sections.len() - 16], &long(1), &store, 5000), (0, 0, 1078));
}

#[test]
fn the_card_is_asked_of_the_whole() {
    let store = [7; 10];
    let two = table(&[(5, 0, 4), (6, 0, 6)]);
    let truth = open(TWO_DEVICES).card;
    let asked = |card| both(TWO_DEVICES, card, &two, &store, 113).0;
    assert_eq!(asked(truth).card, Card { length: 113, sections: 1, devices: 4, payloads: 13 });
    let high = Card { devices: 4094, payloads: (256 << 20) - 10, ..truth };
    assert_eq!(asked(high).number, 0);
    for untrue in [Card { devices: 4095, ..high }, Card { payloads: high.payloads + 1, ..high }] {
        assert_eq!((asked(untrue).number, asked(untrue).index), (CARD, 0));
        assert_eq!(both(TWO_DEVICES, untrue, &two, &store, 112).0.number, ROOM);
    }
    let short = Card { length: 15, ..truth };
    assert_eq!(both(TWO_DEVICES, short, &[], &store, 71).0.number, CARD);
    assert_eq!(both(TWO_DEVICES, short, &[], &store, 70).0.number, ROOM);
}

/// Numbers from a seed.
struct Random(u64);

impl Random {
    fn below(&mut self, bound: u64) -> u64 {
        self.0 = self.0.wrapping_mul(6364136223846793005).wrapping_add(1442695040888963407);
        (self.0 >> 33) % bound
    }
}

#[test]
fn one_by_one_and_in_one_pass_are_the_same() {
    let mut random = Random(8);
    let store: Vec<u8> = (0..40).collect();
    let mut numbers = std::collections::BTreeSet::new();
    for _ in 0..20_000 {
        let mut file = if random.below(3) == 0 { EMPTY } else { TWO_DEVICES }.to_vec();
        if random.below(3) == 0 {
            file.extend([5, 0, 0, 0, 1, 0, 0, 0, 7, 0, 0, 0, 0, 0, 0, 0, 0, 0, 0, 0, 1, 2, 3]);
        }
        if random.below(16) == 0 {
            file.pop();
        }
        let count = random.below(7);
        let records: Vec<(u32, u64, u64)> = (0..count)
            .map(|_| {
                let place = random.below(41);
                let most = if random.below(12) == 0 { 42 } else { 41 - place };
                (random.below(25) as u32, place, random.below(most))
            })
            .collect();
        let mut table = table(&records);
        table.extend(vec![1; random.below(24) as usize]);
        let truth = open(&file).card;
        let card = match random.below(4) {
            0 => Card { devices: 4096 - random.below(6), ..truth },
            _ => truth,
        };
        let room = random.below(file.len() as u64 + 60 * (count + 1)) as usize;
        numbers.insert(both(&file, card, &table, &store, room).0.number);
    }
    assert!([0, CUT, ROOM, HAVE, PAYLOAD, CARD].iter().all(|number| numbers.contains(number)));
}
