//! `cim ready`: a yes, and a line for each thing that is missing.

use cimbrolau::{snapshot, wrapper, Snapshot};
use std::fs;
use std::path::Path;
use std::process::{Command, Output};

/// A panel that is ready, but for the devices with the ids `without`, and with these payloads of id 6, version 1 on.
fn panel(without: &[u32], wrappers: &[&[u8]], disks: &[u32]) -> Vec<u8> {
    let mut panel = Snapshot::empty();
    for id in [3, 4, 13, 16, 17, 21] {
        if !without.contains(&id) {
            panel.add_device((id, 1, 0), b"").unwrap();
        }
    }
    for (payload, version) in wrappers.iter().zip(1..) {
        panel.add_device((6, version, 0), payload).unwrap();
    }
    for id in disks {
        panel.add_disk(*id, b"", b"").unwrap();
    }
    panel.bytes().to_vec()
}

/// What a command prints of a file on standard output and on standard error, and its status.
fn says(command: &str, name: &str, file: &[u8]) -> (String, String, Option<i32>) {
    let path = Path::new(env!("CARGO_TARGET_TMPDIR")).join(format!("ready-{name}.aerosnap"));
    fs::write(&path, file).unwrap();
    let Output { status, stdout, stderr } =
        Command::new(env!("CARGO_BIN_EXE_cim")).arg(command).arg(&path).output().unwrap();
    (String::from_utf8(stdout).unwrap(), String::from_utf8(stderr).unwrap(), status.code())
}

/// A no, with these lines behind it.
fn lacks(name: &str, file: &[u8], lines: &str) {
    assert_eq!(says("ready", name, file), (format!("not ready\n{lines}"), String::new(), Some(1)));
}

#[test]
fn a_panel_with_all_that_is_needed_is_ready() {
    let whole = panel(&[], &[&wrapper::EMPTY], &[0, 1]);
    assert_eq!(says("ready", "yes", &whole), ("ready\n".into(), String::new(), Some(0)));
    // The older interrupt controller will do.
    let older = panel(&[21], &[&wrapper::EMPTY], &[1, 0]);
    let mut older = Snapshot::open(older).unwrap();
    older.add_device((2, 7, 7), b"").unwrap();
    assert_eq!(says("ready", "older", older.bytes()), ("ready\n".into(), String::new(), Some(0)));
}

#[test]
fn what_is_missing_has_a_line_each() {
    lacks(
        "nothing",
        &snapshot::EMPTY,
        "device 3 PIT is missing\n\
         device 4 RTC is missing\n\
         device 6 disk controllers is missing\n\
         device 13 i8042 is missing\n\
         device 16 ACPI PM is missing\n\
         device 17 HPET is missing\n\
         device 2 or 21 interrupt controller is missing\n\
         disk 0 is missing\n\
         disk 1 is missing\n",
    );
    lacks(
        "hpet",
        &panel(&[17], &[&wrapper::EMPTY], &[1]),
        "device 17 HPET is missing\ndisk 0 is missing\n",
    );
}

#[test]
fn device_6_says_why() {
    let two = panel(&[], &[&wrapper::EMPTY, &wrapper::EMPTY], &[0, 1]);
    lacks("two", &two, "device 6: 2 entries have this id, where one is wanted\n");
    let short = panel(&[], &[b"AERO"], &[0, 1]);
    lacks("short", &short, "device 6: its wrapper is refused 1 SHORT at 0\n");
    let mut again = wrapper::EMPTY.to_vec();
    again[16] = 2;
    for _ in 0..2 {
        again.extend(b"\x00\x01\x00\x00SATA\x08\x00\x00\x0012345678"); // bus 1, device 0, function 0
    }
    let again = panel(&[], &[&again], &[0, 1]);
    lacks("again", &again, "device 6: its wrapper is refused 13 KEY at 40\n");
}

#[test]
fn a_refused_snapshot_is_told_as_by_check() {
    let mut cut = panel(&[], &[&wrapper::EMPTY], &[0, 1]);
    cut.pop();
    let (printed, told, status) = says("ready", "cut", &cut);
    assert!(told.starts_with("refused 7 CUT at "), "{told}");
    assert_eq!((printed.as_str(), status), ("", Some(1)));
    // What is said of the place is what every command says of it.
    assert_eq!(says("list", "cut", &cut), (printed, told, status));
}
