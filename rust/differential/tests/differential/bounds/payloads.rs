//! How long device payloads, CPU blobs, the DEVICES payload and wrappers may be.

use differential::compare::Comparison;
use differential::make::{self, Made};

use super::{empty_list, expect, file_of, long_bytes, ABSENT, HAVE, LIMIT, MIB, SIZE, TWICE};

pub fn all(run: &mut Comparison) {
    run.exact = true;
    device_payload(run);
    cpu_blob(run);
    devices_payload(run);
    added_payload(run);
    replaced_payload(run);
    wrapper(run);
    run.exact = false;
}

fn device_payload(run: &mut Comparison) {
    let of = |length| {
        file_of(4, 1, |made| {
            made.number(4, 2).device((9, 1, 0), &long_bytes(length)).device((8, 1, 0), b"x");
        })
    };
    expect(run.file(&of(64 * MIB)), 0, 0);
    expect(run.file(&of(64 * MIB + 1)), LIMIT, 44);
}

fn cpu_blob(run: &mut Comparison) {
    let state = make::cpu_state(&mut run.random, 2, true);
    let of = |length| {
        file_of(7, 2, |made| {
            made.number(4, 1).cpu(9, &state, &long_bytes(length));
        })
    };
    expect(run.file(&of(64 * MIB)), 0, 0);
    expect(run.file(&of(64 * MIB + 1)), LIMIT, 44 + 1191);
}

/// A DEVICES payload of so many bytes: four devices and what a fifth one takes.
fn of_devices_payload(length: usize) -> Vec<u8> {
    let full = long_bytes(64 * MIB - 200);
    let rest = length - 4 - 5 * 16 - 4 * full.len();
    file_of(4, 1, |made| {
        made.number(4, 5);
        for id in [7, 2, 4, 5] {
            made.device((id, 1, 0), &full);
        }
        made.device((1, 1, 0), &long_bytes(rest));
    })
}

fn devices_payload(run: &mut Comparison) {
    let full = of_devices_payload(256 * MIB);
    expect(run.file(&full), 0, 0);
    expect(run.add_device(&full, (1, 1, 0), b"").0, HAVE, 0);
    expect(run.add_device(&full, (1, 1, 1), b"").0, LIMIT, 0);
    drop(full);
    expect(run.file(&of_devices_payload(256 * MIB + 1)), LIMIT, 24);
    // A tail counts.
    let of_tail = |length: usize| {
        let mut tail = vec![0xAB; length];
        tail[..4].fill(0);
        file_of(4, 1, |made| {
            made.raw(&tail);
        })
    };
    let full = of_tail(256 * MIB);
    expect(run.file(&full), 0, 0);
    expect(run.add_device(&full, (1, 1, 1), b"").0, LIMIT, 0);
    drop(full);
    expect(run.add_device(&of_tail(256 * MIB - 16), (1, 1, 1), b"x").0, LIMIT, 0);
    expect(run.file(&of_tail(256 * MIB + 1)), LIMIT, 24);
    // One byte more is seen before the count, and after a second DEVICES.
    let over = vec![0xFF; 256 * MIB + 1];
    let mut made = Made::file();
    made.section(4, 1, 0, |made| {
        made.raw(&over);
    });
    expect(run.file(&made.bytes), LIMIT, 24);
    made = Made::file();
    made.raw(&empty_list(4)).section(4, 1, 0, |made| {
        made.raw(&over);
    });
    expect(run.file(&made.bytes), TWICE, 36);
}

fn added_payload(run: &mut Comparison) {
    let file = Made::file().bytes;
    let over = long_bytes(64 * MIB + 1);
    expect(run.add_device(&file, (1, 1, 0), &over[1..]).0, 0, 16 + 16 + 4 + 16 + 64 * MIB);
    expect(run.add_device(&file, (1, 1, 0), &over).0, LIMIT, 0);
    expect(run.add_disk(&file, 1, &over, b"").0, LIMIT, 0);
    // A device that fills the DEVICES payload to its bound, and one byte more.
    let file = of_devices_payload(256 * MIB - 30);
    expect(run.add_device(&file, (3, 1, 0), &over[..14]).0, 0, 32 + 256 * MIB);
    expect(run.add_device(&file, (3, 1, 0), &over[..15]).0, LIMIT, 0);
}

fn replaced_payload(run: &mut Comparison) {
    let over = long_bytes(64 * MIB + 1);
    let file = file_of(4, 1, |made| {
        made.number(4, 2).device((2, 1, 0), b"second").device((1, 1, 0), b"");
    });
    let others = 16 + 16 + 4 + 16 + 16 + 6;
    expect(run.replace_device(&file, (1, 1, 0), &over[1..]).0, 0, others + 64 * MIB);
    expect(run.replace_device(&file, (1, 1, 0), &over).0, LIMIT, 0);
    // The payload's bound comes before the key, and the key before the bound of DEVICES.
    expect(run.replace_device(&file, (9, 1, 0), &over).0, LIMIT, 0);
    expect(run.replace_device(&file, (9, 1, 0), b"").0, ABSENT, 0);
    // A payload that fills DEVICES to its bound, and one byte more; a removal is asked no bound.
    let file = of_devices_payload(256 * MIB);
    let old = 256 * MIB - 4 - 5 * 16 - 4 * (64 * MIB - 200);
    expect(run.replace_device(&file, (1, 1, 0), &over[..old]).0, 0, 32 + 256 * MIB);
    expect(run.replace_device(&file, (1, 1, 0), &over[..old + 1]).0, LIMIT, 0);
    expect(run.remove_device(&file, (1, 1, 0)).0, 0, 32 + 256 * MIB - 16 - old);
}

fn wrapper(run: &mut Comparison) {
    let of = |length: usize| {
        let mut made = Made::wrapper(2);
        made.controller(9, b"AHCP", b"").controller(8, b"IDE0", &long_bytes(length - 44));
        made.bytes
    };
    expect(run.wrapper(&of(64 * MIB)), 0, 0);
    let mut over = of(64 * MIB + 1);
    expect(run.wrapper(&over), SIZE, 0);
    over[0] = 0;
    expect(run.wrapper(&over), SIZE, 0);
}
