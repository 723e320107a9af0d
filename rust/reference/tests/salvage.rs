//! Salvage: what is kept, what is lost, and why.

use reference::*;

const HEADER: [u8; 16] = *b"AEROSNAP\x01\x00\x01\x00\x00\x00\x00\x00";

/// A section with the length of its payload.
fn section(id: u32, version: u16, flags: u16, payload: &[u8]) -> Vec<u8> {
    let mut bytes = id.to_le_bytes().to_vec();
    bytes.extend(version.to_le_bytes());
    bytes.extend(flags.to_le_bytes());
    bytes.extend((payload.len() as u64).to_le_bytes());
    bytes.extend(payload);
    bytes
}

/// A section of RAM, which has any payload.
fn ram(payload: &[u8]) -> Vec<u8> {
    section(6, 1, 0, payload)
}

/// A section of devices with these keys and payloads.
fn devices_of(entries: &[(u32, &[u8])]) -> Vec<u8> {
    let mut payload = (entries.len() as u32).to_le_bytes().to_vec();
    for (id, bytes) in entries {
        payload.extend(id.to_le_bytes());
        payload.extend([1, 0, 0, 0]);
        payload.extend((bytes.len() as u64).to_le_bytes());
        payload.extend(*bytes);
    }
    section(4, 1, 0, &payload)
}

fn file(sections: &[Vec<u8>]) -> Vec<u8> {
    [&HEADER[..], &sections.concat()].concat()
}

/// A loss: where it starts, how many bytes it has, and its number.
type Loss = (u64, u64, u32);

/// What is salvaged of a file with as much room as it asks for; the output has to be accepted and canonical.
fn salvaged(file: &[u8]) -> (Vec<u8>, Vec<Loss>) {
    let mut out = vec![0xEE; file.len()];
    let mut losses = vec![0xEE; 24 * file.len()];
    let answer = salvage(file, &mut out, &mut losses);
    assert_eq!(answer.number, 0);
    assert!(out[answer.place as usize..].iter().all(|byte| *byte == 0xEE));
    assert!(losses[24 * answer.losses as usize..].iter().all(|byte| *byte == 0xEE));
    out.truncate(answer.place as usize);
    losses.truncate(24 * answer.losses as usize);
    assert_eq!(check(&out).number, 0);
    let mut again = vec![0; out.len()];
    assert_eq!(canonical(&out, &mut again).place, out.len() as u64);
    assert_eq!(again, out);
    let number = |bytes: &[u8]| u64::from_le_bytes(bytes.try_into().unwrap());
    let loss = |record: &[u8]| {
        let why = number(&record[16..]);
        assert_eq!(why >> 32, 0, "the last four bytes are 0");
        (number(&record[..8]), number(&record[8..16]), why as u32)
    };
    (out, losses.chunks_exact(24).map(loss).collect())
}

/// The file that is kept, and the losses.
#[track_caller]
fn gives(whole: &[u8], kept: &[Vec<u8>], losses: &[Loss]) {
    assert_eq!(salvaged(whole), (file(kept), losses.to_vec()));
}

#[test]
fn an_accepted_file_gives_its_canonical_form_and_no_loss() {
    gives(&HEADER, &[], &[]);
    let unordered = devices_of(&[(14, &[0x11]), (3, &[0xAB, 0xCD])]);
    let ordered = devices_of(&[(3, &[0xAB, 0xCD]), (14, &[0x11])]);
    gives(&file(std::slice::from_ref(&unordered)), std::slice::from_ref(&ordered), &[]);
    gives(&file(&[ram(&[1]), unordered]), &[ordered, ram(&[1])], &[]);
    // Leaving out a list with no entries is no loss.
    gives(&file(&[section(4, 1, 0, &[0; 4])]), &[], &[]);
}

#[test]
fn a_broken_section_is_dropped_with_the_reader_s_number() {
    let twice = devices_of(&[(3, &[0x11]), (3, &[0xAB, 0xCD])]);
    gives(&file(&[twice]), &[], &[(16, 55, 13)]);
    gives(
        &file(&[ram(&[1]), section(4, 2, 0, &[0; 4]), ram(&[])]),
        &[ram(&[1])],
        &[(33, 20, 10), (53, 16, 9)],
    );
    gives(&file(&[section(6, 1, 1, &[7])]), &[], &[(16, 17, 5)]);
    gives(&file(&[section(3, 1, 0, &[0; 67])]), &[], &[(16, 83, 11)]);
    gives(&file(&[section(4, 1, 0, &4097u32.to_le_bytes())]), &[], &[(16, 20, 12)]);
    gives(&file(&[section(1, 1, 0, &[2; 40])]), &[], &[(16, 56, 15)]);
}

#[test]
fn the_first_that_does_not_fit_is_the_stop() {
    // P8: the length passes the end by one byte, and what stands behind the header is not looked for.
    let mut cut = file(&[devices_of(&[(14, &[0x11]), (3, &[0xAB, 0xCD])])]);
    cut[24] += 1;
    gives(&cut, &[], &[(16, 55, 7)]);
    let mut cut = file(&[ram(&[1]), section(300, 0, 0, &[2]), ram(&[3])]);
    cut[33 + 8] = 200;
    gives(&cut, &[ram(&[1])], &[(33, 34, 7)]);
    // A length that wraps when it is added to a place.
    cut[33 + 8..33 + 16].fill(0xFF);
    gives(&cut, &[ram(&[1])], &[(33, 34, 7)]);
}

#[test]
fn stray_bytes_are_the_stop_too() {
    for stray in 1..16 {
        let bytes = [file(&[ram(&[1])]), vec![6; stray]].concat();
        gives(&bytes, &[ram(&[1])], &[(33, stray as u64, 7)]);
    }
    // Sixteen are the header of a section: here one of no length, with an id that is carried.
    let bytes = [file(&[ram(&[1])]), vec![0; 16]].concat();
    gives(&bytes, &[ram(&[1]), section(0, 0, 0, &[])], &[]);
}

#[test]
fn only_kept_sections_make_another_twice() {
    // The first is lost, so that the second is kept.
    let broken = section(4, 1, 0, &[1, 0, 0, 0]);
    let good = devices_of(&[(3, &[1])]);
    gives(&file(&[broken.clone(), good.clone()]), std::slice::from_ref(&good), &[(16, 20, 11)]);
    // The first is kept.
    gives(&file(&[good.clone(), broken.clone()]), std::slice::from_ref(&good), &[(53, 20, 9)]);
    gives(&file(&[good.clone(), good.clone()]), std::slice::from_ref(&good), &[(53, 37, 9)]);
    // A list with no entries is kept, though it is not written.
    let empty = section(4, 1, 0, &[0; 4]);
    gives(&file(&[empty, good]), &[], &[(36, 37, 9)]);
}

#[test]
fn cpu_and_cpus_exclude_each_other_if_they_are_kept() {
    let cpu = section(2, 1, 0, &[0; 412]);
    let cpus = section(7, 1, 0, &[0; 5]);
    gives(&file(&[cpu.clone(), cpus.clone()]), std::slice::from_ref(&cpu), &[(444, 21, 9)]);
    gives(&file(&[cpus.clone(), cpu.clone()]), std::slice::from_ref(&cpus), &[(37, 428, 9)]);
    let broken = section(2, 1, 0, &[0; 411]);
    gives(&file(&[broken, cpus.clone()]), std::slice::from_ref(&cpus), &[(16, 427, 11)]);
    let mmu = section(3, 2, 0, &[0; 264]);
    let mmus = section(8, 1, 0, &[0; 5]);
    gives(&file(&[mmu.clone(), mmus.clone()]), std::slice::from_ref(&mmu), &[(296, 21, 9)]);
    gives(&file(&[mmus.clone(), mmu]), std::slice::from_ref(&mmus), &[(37, 280, 9)]);
}

#[test]
fn neighbours_are_not_merged() {
    let broken = section(1, 9, 0, &[]);
    let bytes = [file(&[broken.clone(), broken.clone(), broken]), vec![1; 3]].concat();
    gives(&bytes, &[], &[(16, 16, 10), (32, 16, 10), (48, 16, 10), (64, 3, 7)]);
}

/// So many sections that are carried.
fn carried(count: usize) -> Vec<Vec<u8>> {
    (0..count).map(|at| section(9, at as u16, 7, &[at as u8])).collect()
}

#[test]
fn a_whole_65th_is_dropped_and_so_are_those_behind_it() {
    let end = 16 + 64 * 17;
    gives(&file(&carried(65)), &carried(64), &[(end, 17, 8)]);
    gives(&file(&carried(66)), &carried(64), &[(end, 17, 8), (end + 17, 17, 8)]);
    // A broken one behind them has the number of the first check that fails.
    let mut more = carried(64);
    more.push(section(1, 9, 9, &[]));
    gives(&file(&more), &carried(64), &[(end, 16, 8)]);
}

#[test]
fn a_65th_that_does_not_fit_is_the_stop() {
    let end = 16 + 64 * 17;
    let full = file(&carried(64));
    gives(&[full.clone(), vec![0; 15]].concat(), &carried(64), &[(end, 15, 7)]);
    // In its payload alone: the reader says MANY of it.
    let mut cut = section(9, 1, 0, &[]);
    cut[8] = 1;
    let bytes = [full, cut].concat();
    assert_eq!(check(&bytes), Answer { number: 8, place: end });
    gives(&bytes, &carried(64), &[(end, 16, 7)]);
}

#[test]
fn sixty_four_are_kept_behind_a_loss() {
    let broken = section(6, 2, 0, &[]);
    let mut sections = vec![broken];
    sections.extend(carried(64));
    gives(&file(&sections), &carried(64), &[(16, 16, 10)]);
}

#[test]
fn many_losses_have_no_bound() {
    let broken = section(6, 2, 0, &[]);
    let bytes = file(&vec![broken; 5000]);
    let losses: Vec<Loss> = (0..5000).map(|at| (16 + 16 * at, 16, 10)).collect();
    gives(&bytes, &[], &losses);
}

#[test]
fn header_faults_and_size_are_refused() {
    let refused = |file: &[u8]| {
        let (mut out, mut losses) = ([0xEE; 64], [0xEE; 64]);
        let answer = salvage(file, &mut out, &mut losses);
        assert_eq!((out, losses, answer.losses), ([0xEE; 64], [0xEE; 64], 0));
        (answer.number, answer.place)
    };
    assert_eq!(refused(&HEADER[..15]), (1, 0));
    for (at, expected) in [(0, (2, 0)), (8, (3, 8)), (10, (4, 10)), (11, (5, 11)), (15, (5, 12))] {
        let mut file = [&HEADER[..], &ram(&[1])].concat();
        file[at] ^= 2;
        assert_eq!(refused(&file), expected);
    }
}

#[test]
fn both_rooms_are_asked_before_anything_is_written() {
    let bytes = [file(&[ram(&[1]), section(1, 9, 0, &[])]), vec![0; 2]].concat();
    for room in 0..=40 {
        for records in 0..=50 {
            let (mut out, mut losses) = (vec![0xEE; room], vec![0xEE; records]);
            let answer = salvage(&bytes, &mut out, &mut losses);
            let expected = match (room < 33, records < 48) {
                (true, _) => Salvaged { number: 16, place: 33, losses: 0 },
                (false, true) => Salvaged { number: 16, place: 48, losses: 0 },
                (false, false) => Salvaged { number: 0, place: 33, losses: 2 },
            };
            assert_eq!(answer, expected);
            if answer.number != 0 {
                assert_eq!((out, losses), (vec![0xEE; room], vec![0xEE; records]));
            }
        }
    }
    // Nothing lost: no room for records is needed.
    let good = file(&[ram(&[1])]);
    let taken = Salvaged { number: 0, place: 33, losses: 0 };
    assert_eq!(salvage(&good, &mut [0; 33], &mut []), taken);
}
