//! How long a file may be.

use differential::compare::Comparison;
use differential::make::Made;

use super::{empty_list, expect, HAVE, LIMIT, MANY, MIB, SIZE};

const MOST_FILE: usize = 1024 * MIB;

/// A file of so many bytes: a RAM section, and behind it these sections.
fn filled(length: usize, sections: &[u8]) -> Vec<u8> {
    let ram_end = length - sections.len();
    let mut file = vec![0; length];
    file[..16].copy_from_slice(&Made::file().bytes);
    file[16..24].copy_from_slice(&[6, 0, 0, 0, 1, 0, 0, 0]);
    file[24..32].copy_from_slice(&(ram_end as u64 - 32).to_le_bytes());
    file[32] = 0xA1;
    file[ram_end - 1] = 0xA2;
    file[ram_end..].copy_from_slice(sections);
    file
}

/// Outputs are lent exactly what they need: one of them is written only some times.
pub fn all(run: &mut Comparison) {
    run.exact = true;
    files(run);
    adds(run);
    adds_with_two_faults(run);
    run.exact = false;
}

/// The longest file, and one byte more, which comes before wrong letters.
fn files(run: &mut Comparison) {
    let mut over = filled(MOST_FILE + 1, &empty_list(7));
    expect(run.file(&over), SIZE, 0);
    over[0] = 0;
    expect(run.file(&over), SIZE, 0);
    drop(over);
    expect(run.file(&filled(MOST_FILE, &empty_list(7))), 0, 0);
}

/// Adds up to the longest file and one byte more. The empty list, which is left out, gives 20 bytes; the
/// new section takes 20 with its count, and its entry 20 with the payload or the texts.
fn adds(run: &mut Comparison) {
    let file = filled(MOST_FILE - 20, &empty_list(7));
    expect(run.add_device(&file, (1, 1, 0), b"1234").0, 0, MOST_FILE);
    expect(run.add_device(&file, (1, 1, 0), b"12345").0, SIZE, 0);
    expect(run.add_disk(&file, 1, b"1234", b"5678").0, 0, MOST_FILE);
    expect(run.add_disk(&file, 1, b"1234", b"56789").0, SIZE, 0);
}

/// What comes before SIZE.
fn adds_with_two_faults(run: &mut Comparison) {
    let mut made = Made::default();
    for id in 100..163 {
        made.section(id, 0, 0, |_| {});
    }
    let file = filled(MOST_FILE, &made.bytes);
    expect(run.add_disk(&file, 1, b"", b"").0, MANY, 0);
    drop(file);

    let mut made = Made::default();
    made.section(5, 1, 0, |made| {
        made.number(4, 256);
        for id in 0..256 {
            made.disk(id, b"", b"");
        }
    });
    let file = filled(MOST_FILE, &made.bytes);
    expect(run.add_disk(&file, 255, b"", b"").0, HAVE, 0);
    expect(run.add_disk(&file, 256, b"", b"").0, LIMIT, 0);
    expect(run.add_device(&file, (1, 1, 0), b"").0, SIZE, 0);
}
