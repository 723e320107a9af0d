//! The orders of checks: where two fail, the first in the order is named.

use reference::*;

const HEADER: [u8; 16] = *b"AEROSNAP\x01\x00\x01\x00\x00\x00\x00\x00";

fn pair(answer: Answer) -> (u32, u64) {
    (answer.number, answer.place)
}

/// A section with the length of its payload.
fn section(id: u32, version: u16, flags: u16, payload: &[u8]) -> Vec<u8> {
    let mut bytes = id.to_le_bytes().to_vec();
    bytes.extend(version.to_le_bytes());
    bytes.extend(flags.to_le_bytes());
    bytes.extend((payload.len() as u64).to_le_bytes());
    bytes.extend(payload);
    bytes
}

fn file(sections: &[Vec<u8>]) -> Vec<u8> {
    [&HEADER[..], &sections.concat()].concat()
}

fn checked(sections: &[Vec<u8>]) -> (u32, u64) {
    pair(check(&file(sections)))
}

#[test]
fn header_in_byte_order() {
    let mut bad = [0xFF; 16];
    for (end, expected) in [(0, (2, 0)), (8, (3, 8)), (10, (4, 10)), (11, (5, 11)), (12, (5, 12))] {
        bad[..end].copy_from_slice(&HEADER[..end]);
        assert_eq!(pair(check(&bad)), expected);
    }
    assert_eq!(pair(check(&[0xFF; 15])), (1, 0));
}

#[test]
fn section_checks_in_order() {
    let mut full = vec![section(4, 1, 0, &[0; 4])];
    full.resize(64, section(9, 7, 7, &[1]));
    assert_eq!(checked(&full), (0, 0));
    let end = file(&full).len() as u64;

    // A header that passes the end comes before the 65th, and that before a payload that passes it.
    assert_eq!(checked(&[&full[..], &[vec![0; 15]]].concat()), (7, end));
    let mut cut = section(4, 3, 1, &[]);
    cut[8] = 1;
    assert_eq!(checked(&[&full[..], std::slice::from_ref(&cut)].concat()), (8, end));
    assert_eq!(checked(&[full[0].clone(), cut]), (7, 36));
    // Then version, flags, twice, fields.
    assert_eq!(checked(&[full[0].clone(), section(4, 3, 1, &[])]), (10, 40));
    assert_eq!(checked(&[full[0].clone(), section(4, 1, 1, &[])]), (5, 42));
    assert_eq!(checked(&[full[0].clone(), section(4, 1, 0, &[])]), (9, 36));
    assert_eq!(checked(&[section(4, 1, 0, &[])]), (11, 32));
}

#[test]
fn cpu_excludes_cpus_and_mmu_mmus() {
    let cpu = section(2, 1, 0, &[0; 412]);
    assert_eq!(checked(&[cpu.clone(), section(7, 2, 0, &[])]), (9, 16 + 428));
    assert_eq!(checked(&[section(7, 2, 0, &[0; 4]), cpu]), (9, 36));
    let mmu = section(3, 2, 0, &[0; 264]);
    assert_eq!(checked(&[mmu.clone(), section(8, 1, 0, &[])]), (9, 16 + 280));
    assert_eq!(checked(&[section(8, 1, 0, &[0; 4]), mmu]), (9, 36));
}

#[test]
fn a_section_is_read_to_its_end_before_the_next() {
    let cut = vec![0; 3];
    assert_eq!(checked(&[section(4, 1, 0, &[1, 0, 0, 0, 0]), cut.clone()]), (11, 36));
    // A tail is no fault.
    assert_eq!(checked(&[section(4, 1, 0, &[0; 5]), cut]), (7, 37));
}

#[test]
fn meta_fields_in_order() {
    let meta = |payload: &[u8]| checked(&[section(1, 1, 0, payload)]);
    let mut payload = vec![7; 7];
    assert_eq!(meta(&payload), (11, 32));
    payload.resize(8, 0);
    assert_eq!(meta(&payload), (11, 40));
    assert_eq!(meta(&[&payload[..], &[2]].concat()), (15, 40));
    payload.push(1);
    assert_eq!(meta(&[&payload[..], &[0; 7]].concat()), (11, 41));
    payload.extend([0; 8]);
    assert_eq!(meta(&payload), (11, 49));
    payload.extend([0; 8]);
    assert_eq!(meta(&payload), (11, 57));
    assert_eq!(meta(&[&payload[..], &[0]].concat()), (0, 0));
    assert_eq!(meta(&[&payload[..], &[0, 0]].concat()), (0, 0));
    payload.push(1);
    assert_eq!(meta(&[&payload[..], &[0; 3]].concat()), (11, 58));
    assert_eq!(meta(&[&payload[..], &[0; 4]].concat()), (0, 0));
    assert_eq!(meta(&[&payload[..], &4097u32.to_le_bytes()].concat()), (12, 58));
    assert_eq!(meta(&[&payload[..], &[2, 0, 0, 0, 0xFF]].concat()), (11, 62));
    assert_eq!(meta(&[&payload[..], &[2, 0, 0, 0, 0xFF, 0, 0]].concat()), (14, 62));
    assert_eq!(meta(&[&payload[..], &[2, 0, 0, 0, 0x41, 0, 0]].concat()), (0, 0));
}

#[test]
fn cpu_lengths_and_values() {
    let cpu = |version: u16, state: &[u8]| checked(&[section(2, version, 0, state)]);
    assert_eq!(cpu(1, &[0xFF; 412]), (0, 0));
    assert_eq!(cpu(1, &[0xFF; 413]), (11, 32));
    assert_eq!(cpu(2, &[0xFF; 1190]), (11, 32));
    let mut state = vec![0xFF; 1191];
    for (at, good, expected) in [
        (144, 3, 144),
        (145, 1, 145),
        (260, 7, 260),
        (1183, 4, 1183),
        (1184, 0, 1183),
        (1185, 0, 1183),
        (1186, 0, 1183),
        (1187, 1, 1187),
        (1188, 0, 1188),
        (1189, 1, 1189),
    ] {
        assert_eq!(cpu(2, &state), (15, 32 + expected));
        state[at] = good;
    }
    assert_eq!(cpu(2, &state), (0, 0));
    assert_eq!(cpu(2, &state[..1183]), (0, 0));
    // A longer one says its length, before its values.
    state.push(9);
    assert_eq!(cpu(2, &state), (11, 32));
    state[1183] = 5;
    assert_eq!(cpu(2, &state), (0, 0));
    state[1188] = 2;
    assert_eq!(cpu(2, &state), (15, 32 + 1188));
    state[144] = 4;
    assert_eq!(cpu(2, &state), (15, 32 + 144));
}

#[test]
fn list_counts() {
    for (id, most) in [(4, 4096u32), (5, 256), (7, 256), (8, 256)] {
        assert_eq!(checked(&[section(id, 1, 0, &[0; 3])]), (11, 32));
        assert_eq!(checked(&[section(id, 1, 0, &(most + 1).to_le_bytes())]), (12, 32));
        assert_eq!(checked(&[section(id, 1, 0, &most.to_le_bytes())]), (11, 36));
    }
}

#[test]
fn device_fields_in_order() {
    let first = [3u64.to_le_bytes(), 0u64.to_le_bytes()].concat();
    let list = |rest: &[u8]| {
        checked(&[section(4, 1, 0, &[&2u32.to_le_bytes()[..], &first, rest].concat())])
    };
    let over = ((64u64 << 20) + 1).to_le_bytes();
    assert_eq!(list(&[&3u64.to_le_bytes()[..], &[0; 7]].concat()), (11, 52));
    assert_eq!(list(&[3u64.to_le_bytes(), over].concat()), (13, 52));
    assert_eq!(list(&[4u64.to_le_bytes(), over].concat()), (12, 60));
    assert_eq!(list(&[4u64.to_le_bytes(), 1u64.to_le_bytes()].concat()), (11, 68));
    assert_eq!(list(&[&4u64.to_le_bytes()[..], &[0; 8], &[9]].concat()), (0, 0));
}

#[test]
fn disk_fields_in_order() {
    let list = |rest: &[u8]| {
        checked(&[section(5, 1, 0, &[&2u32.to_le_bytes()[..], &[0; 12], rest].concat())])
    };
    let over = 65_537u32.to_le_bytes();
    assert_eq!(list(&[0; 3]), (11, 48));
    assert_eq!(list(&[0; 4]), (13, 48));
    assert_eq!(list(&[1, 0, 0, 0, 1, 0, 0]), (11, 52));
    assert_eq!(list(&[&[1, 0, 0, 0][..], &over].concat()), (12, 52));
    assert_eq!(list(&[1, 0, 0, 0, 2, 0, 0, 0, 0xFF]), (11, 56));
    assert_eq!(list(&[1, 0, 0, 0, 1, 0, 0, 0, 0xFF]), (14, 56));
    assert_eq!(list(&[1, 0, 0, 0, 1, 0, 0, 0, 0x41, 1, 1, 1]), (11, 57));
    assert_eq!(list(&[&[1, 0, 0, 0, 1, 0, 0, 0, 0x41][..], &over].concat()), (12, 57));
    assert_eq!(list(&[1, 0, 0, 0, 1, 0, 0, 0, 0x41, 1, 0, 0, 0, 0xC0, 9]), (14, 61));
    assert_eq!(list(&[1, 0, 0, 0, 1, 0, 0, 0, 0x41, 1, 0, 0, 0, 0x42, 9]), (0, 0));
}

#[test]
fn cpus_and_mmus_fields_in_order() {
    let cpus =
        |rest: &[u8]| checked(&[section(7, 2, 0, &[&1u32.to_le_bytes()[..], rest].concat())]);
    let over = ((64u64 << 20) + 1).to_le_bytes();
    let head = |length: u32| [1u32.to_le_bytes(), length.to_le_bytes()].concat();
    assert_eq!(cpus(&[0; 7]), (11, 36));
    assert_eq!(cpus(&head(412)), (11, 40));
    assert_eq!(cpus(&[&head(1183)[..], &[0xFF; 1182]].concat()), (11, 44));
    assert_eq!(cpus(&[&head(1183)[..], &[0xFF; 1183]].concat()), (15, 44 + 144));
    let state = [&head(1183)[..], &[0; 1183]].concat();
    assert_eq!(cpus(&[&state[..], &[0; 7]].concat()), (11, 44 + 1183));
    assert_eq!(cpus(&[&state[..], &over].concat()), (12, 44 + 1183));
    assert_eq!(cpus(&[&state[..], &1u64.to_le_bytes()].concat()), (11, 44 + 1191));
    assert_eq!(cpus(&[&state[..], &[0; 9]].concat()), (0, 0));

    let mmus = |count: u32, entries: &[u8]| {
        checked(&[section(8, 1, 0, &[&count.to_le_bytes()[..], entries].concat())])
    };
    assert_eq!(mmus(2, &[0; 143]), (11, 36 + 72));
    assert_eq!(mmus(2, &[0; 144]), (13, 36 + 72));
    assert_eq!(mmus(1, &[0; 73]), (0, 0));
}

#[test]
fn wrapper_checks_in_order() {
    let good = *b"AERO\x01\0\0\0DSKC\x01\0\0\0\x02\0\0\0";
    let wrapper = |rest: &[u8]| pair(wrapper_check(&[&good[..], rest].concat()));
    let mut bad = [0xFF; 20];
    for (end, expected) in [(0, (2, 0)), (4, (3, 4)), (8, (2, 8)), (12, (3, 12)), (16, (12, 16))] {
        bad[..end].copy_from_slice(&good[..end]);
        assert_eq!(pair(wrapper_check(&bad)), expected);
    }
    assert_eq!(pair(wrapper_check(&good[..15])), (1, 0));
    assert_eq!(pair(wrapper_check(&good[..19])), (11, 16));
    assert_eq!(wrapper(&[0; 11]), (11, 20));
    assert_eq!(wrapper(&[[0u8; 12], [0, 0, 1, 0, 0, 0, 0, 0, 9, 0, 0, 0]].concat()), (5, 34));
    assert_eq!(wrapper(&[[0u8; 12], [0, 0, 0, 0, 0, 0, 0, 0, 9, 0, 0, 0]].concat()), (13, 32));
    assert_eq!(wrapper(&[[0u8; 12], [1, 0, 0, 0, 0, 0, 0, 0, 9, 0, 0, 0]].concat()), (11, 44));
    assert_eq!(wrapper(&[&[0u8; 12][..], &[1], &[0; 11], &[5]].concat()), (11, 44));
}

#[test]
fn message_checks_in_order() {
    let read = |message: &[u8]| (message_read(message).number, message_read(message).place);
    assert_eq!(read(&[0xFF; 65_537]), (12, 0));
    assert_eq!(read(&[0xFF; 65_536]), (18, 0));
    assert_eq!(read(&[0]), (11, 0));
    assert_eq!(read(&[0x00, 0x14]), (11, 2));
    assert_eq!(read(&[0x00, 0x14, 5]), (15, 2));
    assert_eq!(read(&[0x00, 0x14, 4, 1, 0, 0]), (11, 3));
    assert_eq!(read(&[0x00, 0x14, 4, 2, 0, 0, 0, 0xFF]), (11, 7));
    assert_eq!(read(&[0x00, 0x14, 4, 1, 0, 0, 0, 0xFF, 0]), (14, 7));
    assert_eq!(read(&[0x00, 0x14, 4, 1, 0, 0, 0, 0x41, 0]), (11, 8));
}

#[test]
fn message_writing_in_order() {
    let long = vec![0xFF; 65_536];
    let written =
        |tag, a, b, c, d, data: &[u8]| pair(message_write(tag, a, b, c, d, data, &mut []));
    assert_eq!(written(2, 9, 9, 9, 9, &long), (18, 0));
    assert_eq!(written(0x1_0000, 0, 0, 0, 0, &[]), (18, 0));
    assert_eq!(written(0x1400, 5, 0, 0, 0, &long), (15, 0));
    assert_eq!(written(0x1400, 4, 1, 0, 0, &long), (15, 0));
    assert_eq!(written(0x1400, 4, 0, 0, 0, &long), (14, 0));
    assert_eq!(written(0x1400, 4, 0, 0, 0, &[0x41; 65_530]), (12, 0));
    assert_eq!(written(0x1400, 4, 0, 0, 0, &[0x41; 65_529]), (16, 65_536));
    assert_eq!(written(0x0001, 0, 0, 0, 0, &[0]), (15, 0));
    assert_eq!(written(0x1104, 1, 1, 0, 0, &[]), (16, 11));
    assert_eq!(written(0x1104, 1, 1, 0, 1, &[]), (15, 0));
    assert_eq!(written(0x1104, 1, 0, 0, 1, &[]), (16, 15));
    assert_eq!(written(0x1104, 1, 0, 0, 1 << 32, &[]), (15, 0));
    assert_eq!(written(0x0102, 1, 0xFFFF, 0, 0, &[]), (16, 12));
    assert_eq!(written(0x0102, 1, 0x1_0000, 0, 0, &[]), (15, 0));
}

#[test]
fn adds_in_order() {
    let bad_text = vec![0xFF; 65_536];
    let long_text = vec![0xFF; 65_537];
    let disk = section(5, 1, 0, &[&[1, 0, 0, 0][..], &[0; 12]].concat());
    let one = file(std::slice::from_ref(&disk));
    let added = |file: &[u8], id, base: &[u8], overlay: &[u8]| {
        pair(add_disk(file, open(file).card, id, base, overlay, &mut []).answer())
    };
    assert_eq!(added(&HEADER[..15], 0, &long_text, &[]), (1, 0));
    assert_eq!(added(&one, 0, &bad_text, &long_text), (12, 0));
    assert_eq!(added(&one, 0, &[], &bad_text), (14, 0));
    assert_eq!(added(&one, 0, &[], &[]), (17, 0));
    assert_eq!(added(&one, 1, &[0x41], &[]), (16, 61));

    // Empty lists take no room in the result; the 65th section does.
    let empty = section(4, 1, 0, &[0; 4]);
    let mut full = vec![section(9, 0, 0, &[]); 63];
    assert_eq!(added(&file(&full), 1, &[], &[]), (16, 16 + 63 * 16 + 32));
    full.push(empty);
    assert_eq!(added(&file(&full), 1, &[], &[]), (16, 16 + 63 * 16 + 32));
    full[63] = disk;
    assert_eq!(added(&file(&full), 1, &[], &[]), (16, 16 + 63 * 16 + 44));
    let full = file(&full);
    let edited = add_device(&full, open(&full).card, 1, 1, 0, &[], &mut []);
    assert_eq!(pair(edited.answer()), (8, 0));
}
