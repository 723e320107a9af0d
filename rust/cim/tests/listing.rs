//! The proved program `listing`, which `rt ci` makes, or `rt run` in its folder: what document 01 has it print, and the same as `cim list` where that reads the file too.

use std::io::Write;
use std::path::Path;
use std::process::{Command, Stdio};

const ROOT: &str = concat!(env!("CARGO_MANIFEST_DIR"), "/../..");

/// The most bytes that the program reads.
const MOST: usize = 32_768;

/// What a command prints on standard output for an input, and whether it ended well.
fn printed(command: &mut Command, input: &[u8]) -> (String, bool) {
    let mut child = command
        .stdin(Stdio::piped())
        .stdout(Stdio::piped())
        .stderr(Stdio::null())
        .spawn()
        .unwrap_or_else(|error| {
            panic!("{command:?}: {error}; make it with `rt run` in crates/listing")
        });
    // A program that has read enough closes its end first.
    let _ = child.stdin.take().unwrap().write_all(input);
    let output = child.wait_with_output().unwrap();
    (String::from_utf8(output.stdout).unwrap(), output.status.success())
}

fn listing(input: &[u8]) -> String {
    // It is made for x86-64, as all that the kit itself runs.
    printed(&mut Command::new(Path::new(ROOT).join("crates/listing/out/listing")), input).0
}

fn cim_list(input: &[u8]) -> (String, bool) {
    printed(Command::new(env!("CARGO_BIN_EXE_cim")).args(["list", "-"]), input)
}

fn sample() -> Vec<u8> {
    std::fs::read(Path::new(ROOT).join("samples/panel.aerosnap")).unwrap()
}

/// Document 01's P4.
fn two_devices() -> Vec<u8> {
    std::fs::read(Path::new(ROOT).join("crates/listing/stdin")).unwrap()
}

/// A file of a length that is its header and one section that the format does not know.
fn long(length: usize) -> Vec<u8> {
    let mut file =
        b"AEROSNAP\x01\x00\x01\x00\x00\x00\x00\x00\x09\x00\x00\x00\x00\x00\x00\x00".to_vec();
    file.extend_from_slice(&(length as u64 - 32).to_le_bytes());
    file.resize(length, 0);
    file
}

#[test]
fn two_devices_in_key_order() {
    let expected =
        "id version flags offset length\n4 1 0 32 39\ndevice 3 1 0 69 2 1\ndevice 14 1 0 52 1 0\n";
    assert_eq!(listing(&two_devices()), expected);
}

#[test]
fn a_file_with_disks() {
    let (expected, good) = cim_list(&sample());
    assert!(good && expected.contains("\ndisk 1 326 9 19 1\ndisk 2 290 24 0 0\n"));
    assert_eq!(listing(&sample()), expected);
}

#[test]
fn a_refusal_and_nothing_else() {
    let mut twice = two_devices();
    twice[36] = 3;
    assert_eq!(listing(&twice), "refused 13 at 53\n");
    assert_eq!(listing(&twice[..15]), "refused 1 at 0\n");
    assert_eq!(listing(&[]), "refused 1 at 0\n");
}

#[test]
fn the_longest_file_and_one_byte_more() {
    let (expected, good) = cim_list(&long(MOST));
    assert!(good);
    assert_eq!(listing(&long(MOST)), expected);
    assert_eq!(listing(&long(MOST + 1)), "too long\n");
    assert_eq!(listing(&vec![0; 1 << 20]), "too long\n");
}

#[test]
fn every_length_cut_and_every_byte_changed() {
    let whole = two_devices();
    for end in 0..whole.len() {
        agree(&whole[..end]);
    }
    for at in 0..whole.len() {
        let mut changed = whole.clone();
        changed[at] ^= 1;
        agree(&changed);
    }
}

/// Both list the file alike, or both refuse it.
fn agree(file: &[u8]) {
    let (expected, good) = cim_list(file);
    let given = listing(file);
    if good {
        assert_eq!(given, expected);
    } else {
        assert!(given.starts_with("refused ") && given.lines().count() == 1, "{given}");
    }
}
