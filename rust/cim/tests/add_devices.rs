//! `cim add-devices`: a list of devices, added all at once or not at all.

mod common;

use common::*;
use std::fs;
use std::path::{Path, PathBuf};

/// A folder with a file of two devices, one with none, and two payloads.
fn ready(test: &str) -> PathBuf {
    let at = folder(test);
    put(&at, "in", TWO_DEVICES);
    put(&at, "none", &TWO_DEVICES[..16]);
    put(&at, "p3", &[0xAB, 0xCD]);
    put(&at, "p 14", &[0x11]);
    at
}

fn add(at: &Path, file: &str, list: &str, more: &[&str]) -> std::process::Output {
    put(at, "list", list.as_bytes());
    run(at, &[&["add-devices", file, "out", "--from", "list"], more].concat())
}

#[test]
fn all_devices_of_a_list_are_added() {
    let at = ready("many");
    let list = "# id version flags payload\n\n  14 1 0 p 14\r\n0x3\t1 0x0   p3";
    prints(add(&at, "none", list, &[]), "71 bytes written to out\n");
    prints(run(&at, &["canon", "in", "form"]), "71 bytes written to form\n");
    assert_eq!(fs::read(at.join("out")).unwrap(), fs::read(at.join("form")).unwrap());
    let card = "71 bytes, 1 section, 2 devices with 3 bytes\n";
    prints(
        add(&at, "none", "3 1 0 p3\n14 1 0 p 14\n", &["--card"]),
        &format!("71 bytes written to out\n{card}"),
    );
    assert_eq!(fs::read(at.join("out")).unwrap(), fs::read(at.join("form")).unwrap());
    prints(run(&at, &["card", "out"]), card);
    // One payload may be that of many, and a list with no device gives the canonical form.
    prints(add(&at, "in", "7 1 0 p3\n8 1 0 p3\n", &[]), "107 bytes written to out\n");
    prints(add(&at, "in", "# none\n", &[]), "71 bytes written to out\n");
    assert_eq!(fs::read(at.join("out")).unwrap(), fs::read(at.join("form")).unwrap());
}

#[test]
fn what_is_refused_is_told_with_its_line() {
    let at = ready("many_refused");
    put(&at, "out", b"old");
    let have = "list, line 3: refused 17 HAVE at 0: added key is there: \
        device 3 PIT, version 1, flags 0\n";
    fails(add(&at, "in", "# one\n5 1 0 p3\n3 1 0 p3\n", &[]), have, 1);
    fails(add(&at, "none", "3 1 0 p3\n\n3 1 0 p 14\n", &[]), have, 1);
    let object = "{\"what\":\"refused\",\"file\":\"list\",\"line\":1,\"number\":17,\"name\":\"HAVE\",\"place\":0,\
        \"meaning\":\"added key is there\",\"where\":\"device 14 PCI_CFG, version 1, flags 0\"}\n";
    let output = add(&at, "in", "14 1 0 p3", &["--json"]);
    assert_eq!(String::from_utf8_lossy(&output.stdout), object);
    assert_eq!(output.status.code(), Some(1));
    // A payload that is too long; and the snapshot's own fault, which no line has.
    fs::File::create(at.join("long")).unwrap().set_len((64 << 20) + 1).unwrap();
    let limit = "list, line 2: refused 12 LIMIT at 0: count or length over its bound: \
        device 9 CPU_INTERNAL, version 1, flags 0\n";
    fails(add(&at, "in", "8 1 0 p3\n9 1 0 long\n", &[]), limit, 1);
    put(&at, "bad", &key_again());
    fails(add(&at, "bad", "3 1 0 p3\n", &[]), KEY_AGAIN, 1);
    assert_eq!(fs::read(at.join("out")).unwrap(), b"old");
}

#[test]
fn no_more_is_read_than_a_snapshot_can_have() {
    let at = ready("many_long");
    put(&at, "empty", b"");
    let list = |count: u32| (0..count).map(|id| format!("{id} 2 0 empty\n")).collect::<String>();
    let most = 4096;
    let bytes = 16 + 16 + 4 + 16 * most;
    prints(add(&at, "none", &list(most), &[]), &format!("{bytes} bytes written to out\n"));
    let limit = "list, line 4097: refused 12 LIMIT at 0: count or length over its bound: \
        device 4096, version 2, flags 0\n";
    // What stands behind is not looked for.
    fails(add(&at, "none", &(list(most + 1) + "9 9 9 nowhere\n"), &[]), limit, 1);
    fs::File::create(at.join("long")).unwrap().set_len(64 << 20).unwrap();
    let long: String = (0..5).map(|id| format!("{id} 2 0 long\n")).collect();
    let limit = "list, line 4: refused 12 LIMIT at 0: count or length over its bound: \
        device 3 PIT, version 2, flags 0\n";
    fails(add(&at, "none", &(long + "9 9 9 nowhere\n"), &[]), limit, 1);
}

#[test]
fn a_wrong_line_and_a_payload_that_is_not_there_are_told() {
    let at = ready("many_wrong");
    let see = "see `cim add-devices --help`";
    let told = format!("cim: add-devices: list, line 2: `x` is no number from 0 to 65535; {see}\n");
    fails(add(&at, "in", "5 1 0 p3\n6 x 0 p3\n", &[]), &told, 2);
    let told =
        format!("cim: add-devices: list, line 1: the file with the payload is missing; {see}\n");
    fails(add(&at, "in", "5 1 0\n", &[]), &told, 2);
    let told = "cim: cannot read nowhere: No such file or directory (os error 2)\n";
    fails(add(&at, "in", "5 1 0 nowhere\n", &[]), told, 3);
    let told = format!("cim: add-devices: `--from` is missing; {see}\n");
    fails(run(&at, &["add-devices", "in", "out"]), &told, 2);
    assert_eq!(names(&at), ["in", "list", "none", "p 14", "p3"]);
}

#[test]
fn one_input_can_be_standard_input() {
    let at = ready("many_piped");
    let words = |file, list| ["add-devices", file, "-", "--from", list];
    put(&at, "list", b"14 1 0 p 14\n3 1 0 p3\n");
    put(&at, "dash", b"14 1 0 p 14\n3 1 0 -\n");
    put(&at, "dashes", b"14 1 0 -\n3 1 0 -\n");
    let one = fed(&at, &words("-", "list"), &TWO_DEVICES[..16]);
    assert_eq!(one.stdout.len(), 71);
    assert_eq!(fed(&at, &words("none", "-"), b"14 1 0 p 14\n3 1 0 p3\n").stdout, one.stdout);
    assert_eq!(fed(&at, &words("none", "dash"), &[0xAB, 0xCD]).stdout, one.stdout);
    let told =
        "cim: add-devices: only one input can be standard input; see `cim add-devices --help`\n";
    for (file, list) in [("-", "-"), ("-", "dash"), ("none", "dashes")] {
        fails(run(&at, &words(file, list)), told, 2);
    }
}
