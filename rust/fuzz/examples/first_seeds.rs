//! Makes the first seeds, as the differential tests make their inputs:
//!
//!     cargo run --manifest-path rust/Cargo.toml -p fuzz --example first_seeds FOLDER

use std::fs;
use std::path::Path;

use differential::make;
use differential::random::Random;
use differential::regions;

fn main() {
    let folder = std::env::args().nth(1).expect("a folder");
    let mut random = Random::new(1);
    let random = &mut random;
    let write = |kind: &str, number: usize, bytes: &[u8]| {
        let folder = Path::new(&folder).join(kind);
        fs::create_dir_all(&folder).expect("the folder can be made");
        fs::write(folder.join(format!("{number:05}")), bytes).expect("a seed can be written");
    };
    for number in 0..40 {
        write("files", number, &make::file(random).bytes);
    }
    for number in 0..12 {
        write("wrappers", number, &make::wrapper(random).bytes);
        write("regions", number, &regions::any(random).bytes);
    }
    // The samples, whose devices and disks the adds meet, and one with META, CPUs and MMUs.
    write("files", 41, include_bytes!("../../../samples/panel.aerosnap"));
    write("files", 42, include_bytes!("../../../samples/states.aerosnap"));
    write("regions", 18, include_bytes!("../../../samples/panel.region"));
    // Almost as many sections as a file may have; one ring in each state, at the end of its data and of the numbers.
    write("files", 40, &[&made_of_none()[..], &[0; 16 * 62]].concat());
    for (number, (at, committed, pending)) in [
        (0, 0, 0),
        (u32::MAX - 39, 40, 24),
        (u32::MAX - 39, 0, 64),
        (24, 64, 0),
        (48, 0, 40),
        (56, 24, 28),
    ]
    .into_iter()
    .enumerate()
    {
        write("regions", 12 + number, &regions::one(64, at, committed, pending).1);
    }
    for (number, extended) in [false, true].into_iter().enumerate() {
        write("states", number, &make::cpu_state(random, 2, extended));
    }
    write("states", 2, &make::mmu_state(random, 2));
    // A state that a newer saver wrote: 63 bytes behind the extension's length.
    let mut longer = make::cpu_state(random, 2, true);
    longer[1183] = 63;
    longer.resize(1187 + 63, 0xA7);
    write("states", 3, &longer);
    let tags = [
        0x0000, 0x0001, 0x0100, 0x0101, 0x0102, 0x0103, 0x0104, 0x0105, 0x1000, 0x1100, 0x1101,
        0x1102, 0x1103, 0x1104, 0x1105, 0x1200, 0x1300, 0x1301, 0x1302, 0x1303, 0x1400, 0x1500,
        0x1FFE, 0x1FFF,
    ];
    for (number, tag) in tags.into_iter().enumerate() {
        let mut out = [0; 64];
        let is_text = matches!(tag, 0x0101 | 0x1100 | 0x1400 | 0x1500 | 0x1FFE);
        let data: &[u8] = if is_text { "tank 15 é".as_bytes() } else { b"" };
        let written = reference::message_write(tag, 1, 0, 0, 0, data, &mut out);
        let other = reference::message_write(tag, 0, 0, 0, 0, data, &mut out);
        let length = if other.number == 0 { other.place } else { written.place };
        write("messages", number, &out[..length as usize]);
    }
}

/// A file with no section.
fn made_of_none() -> Vec<u8> {
    make::Made::file().bytes
}
