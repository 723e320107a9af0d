//! The examples P1 to P13 of the rules.

use reference::*;

const P1: [u8; 16] = *b"AEROSNAP\x01\x00\x01\x00\x00\x00\x00\x00";

fn answer(number: u32, place: u64) -> Answer {
    Answer { number, place }
}

/// A device's entry.
fn device(id: u32, version: u16, flags: u16, payload: &[u8]) -> Vec<u8> {
    let mut entry = id.to_le_bytes().to_vec();
    entry.extend(version.to_le_bytes());
    entry.extend(flags.to_le_bytes());
    entry.extend((payload.len() as u64).to_le_bytes());
    entry.extend(payload);
    entry
}

/// The header, and a DEVICES section of these entries.
fn with_devices(entries: &[Vec<u8>]) -> Vec<u8> {
    let body = entries.concat();
    let mut file = P1.to_vec();
    file.extend([4, 0, 0, 0, 1, 0, 0, 0]);
    file.extend((body.len() as u64 + 4).to_le_bytes());
    file.extend((entries.len() as u32).to_le_bytes());
    file.extend(body);
    file
}

fn p4() -> Vec<u8> {
    with_devices(&[device(14, 1, 0, &[0x11]), device(3, 1, 0, &[0xAB, 0xCD])])
}

fn p5() -> Vec<u8> {
    let mut out = [0; 71];
    assert_eq!(canonical(&p4(), &mut out), answer(0, 71));
    out.to_vec()
}

fn record(id: u32, version: u16, flags: u16, place: (u64, u64), position: u32) -> Vec<u8> {
    let mut record = id.to_le_bytes().to_vec();
    record.extend(version.to_le_bytes());
    record.extend(flags.to_le_bytes());
    record.extend(place.0.to_le_bytes());
    record.extend(place.1.to_le_bytes());
    record.extend(position.to_le_bytes());
    record.extend([0; 4]);
    record
}

#[test]
fn p1_the_header_alone_is_taken_with_no_record() {
    assert_eq!(check(&P1), answer(0, 0));
    assert_eq!(sections(&P1, &mut []), answer(0, 0));
    assert_eq!(devices(&P1, &mut []), answer(0, 0));
    assert_eq!(disks(&P1, &mut []), answer(0, 0));
}

#[test]
fn p2_fifteen_bytes_are_short() {
    assert_eq!(check(&P1[..15]), answer(1, 0));
}

#[test]
fn p3_another_endianness() {
    let mut file = P1;
    file[10] = 2;
    assert_eq!(check(&file), answer(4, 10));
}

#[test]
fn p4_two_devices() {
    let file = p4();
    assert_eq!(file.len(), 71);
    assert_eq!(check(&file), answer(0, 0));
    let mut table = [0xEE; 66];
    assert_eq!(sections(&file, &mut table), answer(0, 32));
    assert_eq!(table[..32], record(4, 1, 0, (32, 39), 0)[..]);
    assert_eq!(devices(&file, &mut table), answer(0, 64));
    assert_eq!(table[..32], record(3, 1, 0, (69, 2), 1)[..]);
    assert_eq!(table[32..64], record(14, 1, 0, (52, 1), 0)[..]);
    assert_eq!(table[64..], [0xEE; 2]);
    assert_eq!(devices(&file, &mut table[..63]), answer(16, 64));
}

#[test]
fn p5_canonical_devices() {
    let mut table = [0; 64];
    assert_eq!(devices(&p5(), &mut table), answer(0, 64));
    assert_eq!(table[..32], record(3, 1, 0, (52, 2), 0)[..]);
    assert_eq!(table[32..], record(14, 1, 0, (70, 1), 1)[..]);
    assert_eq!(p5(), with_devices(&[device(3, 1, 0, &[0xAB, 0xCD]), device(14, 1, 0, &[0x11])]));
}

#[test]
fn p6_a_key_again() {
    let file = with_devices(&[device(3, 1, 0, &[0x11]), device(3, 1, 0, &[0xAB, 0xCD])]);
    assert_eq!(check(&file), answer(13, 53));
}

#[test]
fn p7_an_added_key_that_is_there() {
    let edited = add_device(&p5(), open(&p5()).card, 3, 1, 0, &[], &mut []);
    assert_eq!(edited.answer(), answer(17, 0));
}

#[test]
fn p8_a_section_that_is_cut() {
    let mut file = p4();
    file[24] = 40;
    assert_eq!(check(&file), answer(7, 16));
}

#[test]
fn p9_an_empty_list_is_absent() {
    let file = with_devices(&[]);
    assert_eq!(file.len(), 36);
    let mut out = [0; 36];
    assert_eq!(canonical(&file, &mut out), answer(0, 16));
    assert_eq!(out[..16], P1);
    assert_eq!(out[16..], [0; 20]);
}

#[test]
fn p10_a_port_read_response() {
    let reading = message_read(&[0x01, 0x11, 7, 0, 0, 0, 0x0F, 0, 0, 0]);
    assert_eq!(reading, Reading { tag: 0x1101, a: 7, b: 15, ..Reading::default() });
}

#[test]
fn p11_an_unknown_tag() {
    assert_eq!(message_read(&[2, 0]), Reading { number: 18, ..Reading::default() });
}

#[test]
fn p12_a_disk_read_that_failed() {
    let mut message = [0x04, 0x11, 9, 0, 0, 0, 0, 0, 0, 0, 0, 2, 0, 0, 0];
    let reading = Reading { tag: 0x1104, a: 9, b: 0, c: 0, d: 2, ..Reading::default() };
    assert_eq!(message_read(&message), reading);
    message[6] = 1;
    assert_eq!(message_read(&message), Reading { number: 11, place: 11, ..Reading::default() });
    message[6] = 2;
    assert_eq!(message_read(&message), Reading { number: 15, place: 6, ..Reading::default() });
}

#[test]
fn p13_addresses() {
    let mut wrapper = b"AERO\x01\0\0\0DSKC\x01\0\0\0\x02\0\0\0".to_vec();
    // Bus 1, device 0, function 0, and behind it bus 0, device 31, function 2, which is 250.
    wrapper.extend(*b"\x00\x01\0\0AHCP\x01\0\0\0\x99");
    wrapper.extend(*b"\xFA\x00\0\0IDE0\x00\0\0\0");
    let mut table = [0; 64];
    assert_eq!(controllers(&wrapper, &mut table), answer(0, 64));
    assert_eq!(table[..8], *b"\xFA\x00\0\0IDE0");
    assert_eq!(table[24..32], 1u64.to_le_bytes());
    assert_eq!(table[32..40], *b"\x00\x01\0\0AHCP");
    assert_eq!(table[40..48], 32u64.to_le_bytes());
    assert_eq!(table[56..], 0u64.to_le_bytes());
}

#[test]
fn a_true_card_stays_true() {
    let two = Card { length: 71, sections: 1, devices: 2, payloads: 3 };
    assert_eq!(open(&p4()), Edited { number: 0, index: 0, place: 0, card: two });
    assert_eq!(open(&p5()), open(&p4()));
    assert_eq!(open(&with_devices(&[])).card, Card { length: 16, ..Card::default() });
    assert_eq!(open(&P1[..15]), Edited { number: 1, index: 0, place: 0, card: Card::default() });

    let mut out = [0; 120];
    let more = add_device(&p4(), two, 9, 1, 0, &[7; 5], &mut out);
    assert_eq!(more.answer(), answer(0, 92));
    assert_eq!(more.card, Card { length: 92, sections: 1, devices: 3, payloads: 8 });
    assert_eq!(open(&out[..92]).card, more.card);
    let disk = add_disk(&p4(), two, 1, b"a", b"bc", &mut out);
    assert_eq!(disk.card, Card { length: 106, sections: 2, ..two });
    assert_eq!(open(&out[..disk.place as usize]).card, disk.card);
    let other = replace_device(&p4(), two, 3, 1, 0, &[], &mut out);
    assert_eq!(other.card, Card { length: 69, sections: 1, devices: 2, payloads: 1 });
    let less = remove_device(&p4(), two, 14, 1, 0, &mut out);
    assert_eq!(less.card, Card { length: 54, sections: 1, devices: 1, payloads: 2 });
    let one = out[..54].to_vec();
    let none = remove_device(&one, less.card, 3, 1, 0, &mut out);
    assert_eq!((none.answer(), none.card), (answer(0, 16), open(&P1).card));
}

#[test]
fn an_untrue_card_is_asked_last_and_comes_back() {
    let two = open(&p4()).card;
    let untrue = Card { devices: 4096, ..two };
    let mut out = [0xEE; 100];
    let full = add_device(&p4(), untrue, 9, 1, 0, &[], &mut out);
    assert_eq!(full, Edited { number: 28, index: 0, place: 0, card: untrue });
    assert_eq!(out, [0xEE; 100]);
    // ROOM comes before it, and all that comes before ROOM.
    assert_eq!(add_device(&p4(), untrue, 9, 1, 0, &[], &mut out[..86]).answer(), answer(16, 87));
    assert_eq!(add_device(&p4(), untrue, 3, 1, 0, &[], &mut []).answer(), answer(17, 0));
    assert_eq!(remove_disk(&p4(), untrue, 3, &mut []).answer(), answer(25, 0));
    // It may come back into its bounds.
    let back = remove_device(&p4(), Card { devices: 4097, ..two }, 3, 1, 0, &mut out);
    assert_eq!((back.number, back.card.devices), (0, 4096));
}
