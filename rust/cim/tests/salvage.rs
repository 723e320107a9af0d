//! `cim salvage`: what is kept of damaged files, and what is said of the rest.

mod common;

use cimbrolau::snapshot;
use common::{cim, fails, folder, key_again, names, prints, put, run, TWO_DEVICES};
use std::fs;
use std::path::Path;
use std::process::Output;

/// A section with the length of its payload.
fn section(id: u32, version: u16, payload: &[u8]) -> Vec<u8> {
    let mut bytes = id.to_le_bytes().to_vec();
    bytes.extend(version.to_le_bytes());
    bytes.extend([0, 0]);
    bytes.extend((payload.len() as u64).to_le_bytes());
    bytes.extend(payload);
    bytes
}

fn file(sections: &[Vec<u8>]) -> Vec<u8> {
    [&snapshot::EMPTY[..], &sections.concat()].concat()
}

/// Something is lost: the text on standard output, and status 4.
#[track_caller]
fn loses(output: Output, expected: &str) {
    assert_eq!(String::from_utf8_lossy(&output.stderr), "");
    assert_eq!(String::from_utf8_lossy(&output.stdout), expected);
    assert_eq!(output.status.code(), Some(4));
}

fn salvage(folder: &Path, file: &[u8], more: &[&str]) -> Output {
    put(folder, "damaged", file);
    run(folder, &[&["salvage", "damaged", "saved"], more].concat())
}

#[test]
fn an_accepted_file_loses_nothing_and_is_canonical() {
    let folder = folder("salvage-nothing");
    prints(salvage(&folder, TWO_DEVICES, &[]), "71 bytes written to saved\nnothing is lost\n");
    assert_eq!(fs::read(folder.join("saved")).unwrap(), snapshot::canonical(TWO_DEVICES).unwrap());
    prints(
        salvage(&folder, TWO_DEVICES, &["--json"]),
        "{\"what\":\"written\",\"file\":\"saved\",\"bytes\":71}\n\
         {\"what\":\"salvaged\",\"bytes\":71,\"kept\":71,\"lost\":0,\"losses\":0}\n",
    );
}

#[test]
fn each_loss_has_its_line() {
    let folder = folder("salvage-lines");
    let ram = section(6, 1, &[0; 40]);
    let mut damaged = key_again();
    damaged.extend(section(6, 9, b""));
    damaged.extend(&ram);
    damaged.extend(&ram);
    damaged.extend(section(4096, 0, b"kept"));
    damaged.extend(&ram[..50]);
    loses(
        salvage(&folder, &damaged, &[]),
        "92 bytes written to saved\n\
         lost 55 bytes at 16 (0x10): 13 KEY: key again: DEVICES, version 1, flags 0\n\
         lost 16 bytes at 71 (0x47): 10 SECVER: section version not taken: RAM, version 9, flags 0\n\
         lost 56 bytes at 143 (0x8F): 9 TWICE: section again, or one state beside a list of them: RAM, version 1, flags 0\n\
         lost 50 bytes at 219 (0xDB): 7 CUT: section passes the end: RAM, version 1, flags 0, with 34 of its 40 bytes\n\
         177 of 269 bytes are lost\n",
    );
    let saved = fs::read(folder.join("saved")).unwrap();
    assert_eq!(saved, file(&[ram, section(4096, 0, b"kept")]));
}

#[test]
fn a_header_that_is_not_whole_is_told() {
    let folder = folder("salvage-stray");
    loses(
        salvage(&folder, &[&snapshot::EMPTY[..], b"x"].concat(), &[]),
        "16 bytes written to saved\n\
         lost 1 byte at 16 (0x10): 7 CUT: section passes the end: 1 of a header's 16 bytes\n\
         1 of 17 bytes are lost\n",
    );
    loses(
        salvage(&folder, &[&snapshot::EMPTY[..], &[0xFF; 15]].concat(), &["--json"]),
        "{\"what\":\"written\",\"file\":\"saved\",\"bytes\":16}\n\
         {\"what\":\"loss\",\"start\":16,\"bytes\":15,\"sections\":1,\"number\":7,\"name\":\"CUT\",\"meaning\":\"section passes the end\"}\n\
         {\"what\":\"salvaged\",\"bytes\":31,\"kept\":16,\"lost\":15,\"losses\":1}\n",
    );
}

#[test]
fn neighbours_with_one_header_are_on_one_line() {
    let folder = folder("salvage-zeros");
    let zeros = [&snapshot::EMPTY[..], &vec![0; 100_003]].concat();
    loses(
        salvage(&folder, &zeros, &[]),
        "1040 bytes written to saved\n\
         lost 98976 bytes at 1040 (0x410), 6186 sections of 16 bytes: 8 MANY: 65th section: id 0, version 0, flags 0\n\
         lost 3 bytes at 100016 (0x186B0): 7 CUT: section passes the end: 3 of a header's 16 bytes\n\
         98979 of 100019 bytes are lost\n",
    );
    // Another header, another payload, or a kept section between them: lines of their own.
    let broken = [
        section(1, 9, b""),
        section(1, 9, b""),
        section(1, 9, b"x"),
        section(2, 9, b""),
        section(9, 9, b""),
        section(2, 9, b""),
    ];
    let output = salvage(&folder, &file(&broken), &["--json"]);
    let told = String::from_utf8(output.stdout).unwrap();
    let starts: Vec<&str> = told
        .lines()
        .filter_map(|line| line.strip_prefix("{\"what\":\"loss\",\"start\":")?.split_once(",\"nu"))
        .map(|(start, _)| start)
        .collect();
    let expected = [
        "16,\"bytes\":32,\"sections\":2",
        "48,\"bytes\":17,\"sections\":1",
        "65,\"bytes\":16,\"sections\":1",
        "97,\"bytes\":16,\"sections\":1",
    ];
    assert_eq!(starts, expected);
}

#[test]
fn beside_standard_output_it_is_told_on_standard_error() {
    let folder = folder("salvage-dash");
    put(&folder, "damaged", &key_again());
    let output = run(&folder, &["salvage", "damaged", "-"]);
    assert_eq!(output.stdout, snapshot::EMPTY);
    assert_eq!(
        String::from_utf8_lossy(&output.stderr),
        "lost 55 bytes at 16 (0x10): 13 KEY: key again: DEVICES, version 1, flags 0\n\
         55 of 71 bytes are lost\n"
    );
    assert_eq!(output.status.code(), Some(4));
}

#[test]
fn a_wrong_header_is_refused_and_nothing_is_written() {
    let folder = folder("salvage-refused");
    let mut wrong = TWO_DEVICES.to_vec();
    wrong[10] = 2;
    fails(
        salvage(&folder, &wrong, &[]),
        "refused 4 ENDIAN at 10 (0xA): endianness tag not 1: the file's header\n\
         bytes from 2: 52 4F 53 4E 41 50 01 00 [02] 00 00 00 00 00 04 00 00\n",
        1,
    );
    fails(salvage(&folder, b"", &[]), "refused 1 SHORT at 0: under 16 bytes: it has 0 bytes\n", 1);
    assert_eq!(names(&folder), ["damaged"]);
    put(&folder, "saved", b"old");
    let output = salvage(&folder, TWO_DEVICES, &["--no-clobber"]);
    fails(output, "cim: cannot write saved: it is there already\n", 3);
    assert_eq!(fs::read(folder.join("saved")).unwrap(), b"old");
    fails(
        cim(&folder).args(["salvage", "damaged"]).output().unwrap(),
        "cim: salvage: takes FILE and OUT, and 1 are given; see `cim salvage --help`\n",
        2,
    );
}
