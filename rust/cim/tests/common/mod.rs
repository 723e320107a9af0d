//! What the tests of the command share: folders, files, and the command run in them.

#![allow(dead_code)] // each test program uses some of it

use std::fs;
use std::io::Write;
use std::path::{Path, PathBuf};
use std::process::{Command, Output, Stdio};

/// Document 01's example P4: two devices, saved in descending order of their keys.
pub const TWO_DEVICES: &[u8] = b"AEROSNAP\x01\x00\x01\x00\x00\x00\x00\x00\
    \x04\x00\x00\x00\x01\x00\x00\x00\x27\x00\x00\x00\x00\x00\x00\x00\
    \x02\x00\x00\x00\
    \x0E\x00\x00\x00\x01\x00\x00\x00\x01\x00\x00\x00\x00\x00\x00\x00\x11\
    \x03\x00\x00\x00\x01\x00\x00\x00\x02\x00\x00\x00\x00\x00\x00\x00\xAB\xCD";

/// P6: P4 with both keys (3, 1, 0).
pub fn key_again() -> Vec<u8> {
    let mut file = TWO_DEVICES.to_vec();
    file[36] = 3;
    file
}

/// What is said of P6.
pub const KEY_AGAIN: &str = "refused 13 KEY at 53 (0x35): key again: \
    DEVICES, entry 1 (device 3 PIT, version 1, flags 0), the same key as entry 0 at 36\n\
    bytes from 45: 00 00 00 00 00 00 00 11 [03] 00 00 00 01 00 00 00 02\n";

/// A folder of its own for one test, empty.
pub fn folder(test: &str) -> PathBuf {
    let folder = Path::new(env!("CARGO_TARGET_TMPDIR")).join(test);
    let _ = fs::remove_dir_all(&folder);
    fs::create_dir_all(&folder).unwrap();
    folder
}

pub fn put(folder: &Path, name: &str, bytes: &[u8]) -> PathBuf {
    let path = folder.join(name);
    fs::write(&path, bytes).unwrap();
    path
}

/// The names of what stands in a folder, sorted.
pub fn names(folder: &Path) -> Vec<String> {
    let name =
        |entry: std::io::Result<fs::DirEntry>| entry.unwrap().file_name().into_string().unwrap();
    let mut names: Vec<String> = fs::read_dir(folder).unwrap().map(name).collect();
    names.sort();
    names
}

pub fn cim(folder: &Path) -> Command {
    let mut command = Command::new(env!("CARGO_BIN_EXE_cim"));
    command.current_dir(folder);
    command
}

pub fn run(folder: &Path, words: &[&str]) -> Output {
    cim(folder).args(words).output().unwrap()
}

/// Runs with `input` on standard input.
pub fn fed(folder: &Path, words: &[&str], input: &[u8]) -> Output {
    let mut child = cim(folder)
        .args(words)
        .stdin(Stdio::piped())
        .stdout(Stdio::piped())
        .stderr(Stdio::piped())
        .spawn()
        .unwrap();
    child.stdin.take().unwrap().write_all(input).unwrap();
    child.wait_with_output().unwrap()
}

#[track_caller]
pub fn prints(output: Output, expected: &str) {
    assert_eq!(String::from_utf8_lossy(&output.stderr), "");
    assert_eq!(String::from_utf8_lossy(&output.stdout), expected);
    assert_eq!(output.status.code(), Some(0));
}

/// Nothing on standard output, the text on standard error, the status.
#[track_caller]
pub fn fails(output: Output, expected: &str, status: i32) {
    assert_eq!(String::from_utf8_lossy(&output.stderr), expected);
    assert_eq!(String::from_utf8_lossy(&output.stdout), "");
    assert_eq!(output.status.code(), Some(status));
}

/// Says that a test is not run, past what the tests' own output keeps back.
pub fn not_run(why: &str) {
    let _ = writeln!(std::io::stderr(), "not run: {why}");
}
