//! Runs `cim` as a person would: every command, its refusals and statuses.

mod common;

#[allow(dead_code)]
#[path = "../examples/panel.rs"]
mod panel;
#[allow(dead_code)]
#[path = "../examples/panel_region.rs"]
mod panel_region;

use common::*;
use std::fs;
use std::path::Path;

// ---- check and list

#[test]
fn list_prints_the_listing_of_document_01() {
    let at = folder("list");
    put(&at, "good", TWO_DEVICES);
    put(&at, "bad", &key_again());
    let listing =
        "id version flags offset length\n4 1 0 32 39\ndevice 3 1 0 69 2 1\ndevice 14 1 0 52 1 0\n";
    prints(run(&at, &["list", "good"]), listing);
    prints(fed(&at, &["list", "-"], TWO_DEVICES), listing);
    fails(run(&at, &["list", "bad"]), KEY_AGAIN, 1);
}

#[test]
fn list_has_no_bound_of_its_own() {
    let at = folder("list_long");
    let mut file = TWO_DEVICES[..16].to_vec();
    file.extend(b"\x06\x00\x00\x00\x01\x00\x00\x00\x00\x00\x10\x00\x00\x00\x00\x00"); // RAM, 1 MiB
    file.resize(32 + (1 << 20), 7);
    put(&at, "ram", &file);
    prints(run(&at, &["list", "ram"]), "id version flags offset length\n6 1 0 32 1048576\n");
}

#[test]
fn a_file_over_the_bound_is_refused_without_being_read_whole() {
    let at = folder("endless");
    let zero = || std::fs::File::open("/dev/zero").unwrap();
    let run = |words: &[&str]| cim(&at).args(words).stdin(zero()).output().unwrap();
    fails(run(&["wrapper", "-"]), "refused 6 SIZE at 0: too long\n", 1);
    fails(run(&["message", "-"]), "refused 12 LIMIT at 0: count or length over its bound\n", 1);
}

// ---- the sample

#[test]
fn the_sample_is_what_its_generator_makes() {
    let sample = Path::new(env!("CARGO_MANIFEST_DIR")).join("../../samples/panel.aerosnap");
    assert_eq!(fs::read(sample).unwrap(), panel::panel());
}

#[test]
fn the_sample_is_listed_in_key_order() {
    let at = folder("sample");
    put(&at, "panel", &panel::panel());
    let listing = "id version flags offset length\n\
        4096 7 1 32 14\n6 1 0 62 64\n4 1 0 142 120\n5 1 0 278 80\n1 1 0 374 50\n\
        device 3 0 0 260 2 3\ndevice 3 1 0 242 2 2\ndevice 14 1 0 225 1 1\ndevice 256 1 0 162 47 0\n\
        disk 1 326 9 19 1\ndisk 2 290 24 0 0\n";
    prints(run(&at, &["list", "panel"]), listing);
}

// ---- writing

#[test]
fn canon_writes_the_canonical_form() {
    let at = folder("canon");
    put(&at, "in", TWO_DEVICES);
    prints(run(&at, &["canon", "in", "out"]), "71 bytes written to out\n");
    let listing =
        "id version flags offset length\n4 1 0 32 39\ndevice 3 1 0 52 2 0\ndevice 14 1 0 70 1 1\n";
    prints(run(&at, &["list", "out"]), listing);
    assert_eq!(names(&at), ["in", "out"]);

    let piped = fed(&at, &["canon", "-", "-"], TWO_DEVICES);
    assert_eq!(piped.stdout, fs::read(at.join("out")).unwrap());
    assert_eq!(piped.status.code(), Some(0));
}

#[test]
fn canon_may_write_over_its_input() {
    let at = folder("canon_over");
    put(&at, "file", TWO_DEVICES);
    prints(run(&at, &["canon", "file", "file"]), "71 bytes written to file\n");
    assert_ne!(fs::read(at.join("file")).unwrap(), TWO_DEVICES);
    assert_eq!(names(&at), ["file"]);
}

#[test]
fn adds_in_any_order_end_in_the_same_bytes() {
    let at = folder("adds");
    put(&at, "none", &TWO_DEVICES[..16]);
    put(&at, "p14", &[0x11]);
    put(&at, "p3", &[0xAB, 0xCD]);
    let device = |from: &str, to: &str, id: &str, payload: &str| {
        let words = [
            "add-device",
            from,
            to,
            "--id",
            id,
            "--version",
            "1",
            "--flags",
            "0",
            "--payload",
            payload,
        ];
        assert_eq!(run(&at, &words).status.code(), Some(0));
    };
    let disk = |from: &str, to: &str| {
        let words = ["add-disk", from, to, "--id", "7", "--base", "base.img", "--overlay", ""];
        assert_eq!(run(&at, &words).status.code(), Some(0));
    };
    device("none", "a", "14", "p14");
    device("a", "a", "0x3", "p3");
    let two = fs::read(at.join("a")).unwrap();
    assert_eq!(two.len(), 71);
    disk("a", "a");
    disk("none", "b");
    device("b", "b", "3", "p3");
    device("b", "b", "14", "p14");
    assert_eq!(fs::read(at.join("a")).unwrap(), fs::read(at.join("b")).unwrap());
    let listing = "id version flags offset length\n4 1 0 32 39\n5 1 0 87 24\n\
        device 3 1 0 52 2 0\ndevice 14 1 0 70 1 1\ndisk 7 99 8 0 0\n";
    prints(run(&at, &["list", "a"]), listing);
}

#[test]
fn a_card_is_shown_and_moves_with_every_edit() {
    let at = folder("card");
    put(&at, "in", TWO_DEVICES);
    put(&at, "payload", b"level");
    prints(run(&at, &["card", "in"]), "71 bytes, 1 section, 2 devices with 3 bytes\n");
    let object = r#"{"what":"card","length":71,"sections":1,"devices":2,"payloads":3}"#;
    prints(run(&at, &["card", "--json", "in"]), &format!("{object}\n"));
    prints(fed(&at, &["card", "-"], TWO_DEVICES), "71 bytes, 1 section, 2 devices with 3 bytes\n");
    let told = "refused 1 SHORT at 0: under 16 bytes: it has 15 bytes\n\
        bytes from 0: [41] 45 52 4F 53 4E 41 50 01\n";
    fails(fed(&at, &["card", "-"], &TWO_DEVICES[..15]), told, 1);

    let key = ["--id", "3", "--version", "1", "--flags", "0"];
    let edits: [(&str, &[&str], &str); 5] = [
        (
            "replace-device",
            &["--payload", "payload"],
            "74 bytes, 1 section, 2 devices with 6 bytes",
        ),
        (
            "add-disk",
            &["--base", "", "--overlay", "a"],
            "107 bytes, 2 sections, 2 devices with 6 bytes",
        ),
        ("remove-device", &[], "86 bytes, 2 sections, 1 device with 1 byte"),
        ("add-device", &["--payload", "payload"], "107 bytes, 2 sections, 2 devices with 6 bytes"),
        ("remove-disk", &[], "74 bytes, 1 section, 2 devices with 6 bytes"),
    ];
    fs::copy(at.join("in"), at.join("file")).unwrap();
    for (command, more, card) in edits {
        let key = if command.ends_with("disk") { &key[..2] } else { &key[..] };
        let words = [&[command, "file", "file", "--card"], key, more].concat();
        let output = run(&at, &words);
        let bytes = fs::read(at.join("file")).unwrap().len();
        prints(output, &format!("{bytes} bytes written to file\n{card}\n"));
        prints(run(&at, &["card", "file"]), &format!("{card}\n"));
    }
    let words = ["remove-disk", "in", "-", "--id", "3", "--card"];
    let told = "cim: remove-disk: --card is printed on standard output, which is OUT; see `cim remove-disk --help`\n";
    fails(run(&at, &words), told, 2);
}

#[test]
fn adds_are_refused_as_the_library_refuses() {
    let at = folder("adds_refused");
    put(&at, "in", TWO_DEVICES);
    put(&at, "bad", &key_again());
    put(&at, "payload", b"x");
    let have = "refused 17 HAVE at 0: added key is there\n";
    let device = |file: &str, id: &str| {
        let words = [
            "add-device",
            file,
            "out",
            "--id",
            id,
            "--version",
            "1",
            "--flags",
            "0",
            "--payload",
            "payload",
        ];
        run(&at, &words)
    };
    fails(device("in", "3"), have, 1);
    fails(device("bad", "9"), KEY_AGAIN, 1);
    let disk = |base: &std::ffi::OsStr| {
        cim(&at)
            .args(["add-disk", "in", "out", "--id", "1", "--overlay", "", "--base"])
            .arg(base)
            .output()
            .unwrap()
    };
    use std::os::unix::ffi::OsStrExt;
    fails(disk(std::ffi::OsStr::from_bytes(b"\xFF")), "refused 14 TEXT at 0: not UTF-8\n", 1);
    let long = "x".repeat(65_537);
    fails(disk(long.as_ref()), "refused 12 LIMIT at 0: count or length over its bound\n", 1);
    assert_eq!(names(&at), ["bad", "in", "payload"]);
}

#[test]
fn an_add_can_take_its_file_or_its_payload_from_standard_input() {
    let at = folder("adds_piped");
    put(&at, "none", &TWO_DEVICES[..16]);
    put(&at, "payload", b"xy");
    let words = |file, payload| {
        [
            "add-device",
            file,
            "-",
            "--id",
            "1",
            "--version",
            "1",
            "--flags",
            "0",
            "--payload",
            payload,
        ]
    };
    let one = fed(&at, &words("-", "payload"), &TWO_DEVICES[..16]);
    let other = fed(&at, &words("none", "-"), b"xy");
    assert_eq!(one.stdout.len(), 54);
    assert_eq!(one.stdout, other.stdout);
    let both = run(&at, &words("-", "-"));
    let told =
        "cim: add-device: only one input can be standard input; see `cim add-device --help`\n";
    fails(both, told, 2);
}

// ---- wrappers and messages

#[test]
fn wrapper_lists_controllers_in_address_order() {
    let at = folder("wrapper");
    let wrapper = b"AERO\x01\x00\x00\x00DSKC\x01\x00\x00\x00\x02\x00\x00\x00\
        \x00\x01\x00\x00NVME\x01\x00\x00\x00\x07\
        \xFA\x00\x00\x00S T\xFF\x00\x00\x00\x00";
    put(&at, "good", wrapper);
    let mut bad = *wrapper;
    bad[8] = b'X';
    put(&at, "bad", &bad);
    let listing = "address bus device function tag offset length position\n\
        250 0 31 2 S\\x20T\\xff 45 0 1\n256 1 0 0 NVME 32 1 0\n";
    prints(run(&at, &["wrapper", "good"]), listing);
    prints(fed(&at, &["wrapper", "-"], wrapper), listing);
    let told = "refused 2 MAGIC at 8: letters wrong: the wrapper's header\n\
        bytes from 0: 41 45 52 4F 01 00 00 00 [58] 53 4B 43 01 00 00 00 02\n";
    fails(run(&at, &["wrapper", "bad"]), told, 1);
    let mut twice = *wrapper;
    (twice[33], twice[34]) = (0, 1);
    put(&at, "twice", &twice);
    let told = "refused 13 KEY at 33 (0x21): key again: entry 1\n\
        bytes from 25: 4D 45 01 00 00 00 07 [00] 01 00 00 53 20 54 FF 00\n";
    let output = run(&at, &["wrapper", "twice"]);
    assert_eq!(output.status.code(), Some(1));
    assert!(String::from_utf8_lossy(&output.stderr).starts_with(told.lines().next().unwrap()));
}

#[test]
fn message_tells_kind_numbers_and_data() {
    let at = folder("message");
    let hex = |bytes: &str| run(&at, &["message", "--hex", bytes]);
    prints(hex("01 11 07 00 00 00 0F 00 00 00"), "PortReadResp id 7 value 15\n");
    prints(hex("01110700 00000f000000"), "PortReadResp id 7 value 15\n");
    // Without the option too, unless a file has that name.
    prints(run(&at, &["message", "01110700 00000f000000"]), "PortReadResp id 7 value 15\n");
    fs::write(at.join("0200"), [0xff, 0x1f]).unwrap();
    prints(run(&at, &["message", "0200"]), "TripleFault\n");
    fails(hex("0200"), "refused 18 TAG at 0: unknown tag\nbytes from 0: [02] 00\n", 1);
    prints(
        hex("04 11 09 00 00 00 00 00 00 00 00 02 00 00 00"),
        "DiskReadResp id 9 ok 0 bytes 0 error_code 2\n",
    );
    prints(hex("04 11 09 00 00 00 01 00 02 00 00"), "DiskReadResp id 9 ok 1 bytes 512\n");
    prints(hex("00 14 03 03 00 00 00 61 0A 62"), "Log level 3 data 7 3 \"a\\nb\"\n");
    let serial = "SerialOutput port 1016 data 8 2";
    prints(hex("00 15 F8 03 02 00 00 00 68 69"), &format!("{serial} \"hi\"\n"));
    prints(hex("00 15 F8 03 02 00 00 00 02 69"), &format!("{serial} hex 02 69\n"));
    prints(hex("00 15 F8 03 00 00 00 00"), "SerialOutput port 1016 data 8 0 \"\"\n");
    // As people paste it.
    for bytes in ["0x01 0x11 0x07 0 0 0", "1 11 7", "01 11 x"] {
        assert_eq!(hex(bytes).status.code(), Some(2), "{bytes}");
    }
    let pasted =
        ["0x01,0x11,0x07,0x00,0x00,0x00,0x0F,0x00,0x00,0x00", "01:11:07:00:00:00:0f:00:00:00"];
    for bytes in pasted {
        prints(hex(bytes), "PortReadResp id 7 value 15\n");
        prints(run(&at, &["message", bytes]), "PortReadResp id 7 value 15\n");
    }
    prints(hex("ff 1f"), "TripleFault\n");
    fails(hex("02 00"), "refused 18 TAG at 0: unknown tag\nbytes from 0: [02] 00\n", 1);
    fails(hex(""), "refused 11 SHAPE at 0: field doesn't fit, or bytes left over\n", 1);
    let two = "04 11 09 00 00 00 02 00 00 00 00 02 00 00 00";
    let told = "refused 15 VALUE at 6: byte or number outside its values\n\
        bytes from 0: 04 11 09 00 00 00 [02] 00 00 00 00 02 00 00 00\n";
    fails(hex(two), told, 1);
    let file = b"\x00\x10\x0F\x00\x00\x00";
    put(&at, "ack", file);
    prints(run(&at, &["message", "ack"]), "Ack seq 15\n");
    prints(fed(&at, &["message", "-"], file), "Ack seq 15\n");
}

// ---- regions

const REGION_HEADING: &str = "queue kind offset capacity head reserve commit used\n";

#[test]
fn the_region_that_the_documents_show_is_the_one_that_is_made() {
    let sample = Path::new(env!("CARGO_MANIFEST_DIR")).join("../../samples/panel.region");
    assert_eq!(fs::read(sample).unwrap(), panel_region::panel_region().unwrap());
}

#[test]
fn region_lists_queues_and_what_waits() {
    let at = folder("region");
    let bytes = panel_region::panel_region().unwrap();
    let file = put(&at, "panel", &bytes);
    let listing = [
        REGION_HEADING,
        "0 0 48 128 -40 64 32 104\n",
        "1 1 192 64 -24 28 28 52\n",
        "record 0 156 12 PortRead id 7 port 1016 size 1\n",
        "record 0 68 25 MmioWrite id 8 addr 4096 data 18 7 \"valve 7\"\n",
        "record 1 252 10 PortReadResp id 7 value 15\n",
        "record 1 212 14 Log level 3 data 7 7 \"tank 15\"\n",
        "record 1 232 2 refused 18 TAG at 0: unknown tag; bytes 02 00\n",
    ]
    .concat();
    prints(run(&at, &["region", "panel"]), &listing);
    prints(fed(&at, &["region", "-"], &bytes), &listing);
    assert_eq!(fs::read(file).unwrap(), bytes);
    let none = b"AIPC\x01\0\0\0\x10\0\0\0\0\0\0\0";
    prints(fed(&at, &["region", "-"], none), REGION_HEADING);
}

#[test]
fn region_tells_of_a_record_that_cannot_be_taken() {
    let at = folder("region_record");
    let mut bytes = panel_region::panel_region().unwrap();
    bytes[64] = 29; // the length of the second command, 25: now its record would pass the commit cursor
    put(&at, "long", &bytes);
    let output = run(&at, &["region", "long"]);
    let shown = String::from_utf8(output.stdout.clone()).unwrap();
    let told = "record 0 156 12 PortRead id 7 port 1016 size 1\n\
        record 0 refused 24 RECORD at 0: committed record or skip runs too far\n\
        record 1 252 10 PortReadResp";
    assert!(shown.contains(told), "{shown}");
    assert_eq!(output.status.code(), Some(0));
    // A payload of no byte is shown too.
    bytes[64] = 0;
    put(&at, "short", &bytes);
    let shown = String::from_utf8(run(&at, &["region", "short"]).stdout).unwrap();
    let told =
        "record 0 68 0 refused 11 SHAPE at 0: field doesn't fit, or bytes left over; bytes\n";
    assert!(shown.contains(told), "{shown}");
}

#[test]
fn region_refuses_what_is_broken() {
    let at = folder("region_broken");
    let bytes = panel_region::panel_region().unwrap();
    let broken = |place: usize, byte: u8| {
        let mut bytes = bytes.clone();
        bytes[place] = byte;
        fed(&at, &["region", "-"], &bytes)
    };
    let is_told = |output: std::process::Output, place: &str, lies: &str| {
        let told = String::from_utf8(output.stderr).unwrap();
        let (line, bytes) = told.split_once('\n').unwrap();
        assert_eq!(line, format!("refused 20 REGION at {place}: broken region: {lies}"));
        assert!(bytes.starts_with("bytes from ") && bytes.contains('['), "{bytes}");
        assert_eq!(output.status.code(), Some(1));
    };
    let header = "the region's header";
    is_told(broken(0, b'B'), "0", header);
    is_told(broken(12, 65), "12 (0xC)", header);
    is_told(broken(36, 44), "36 (0x24)", "queue 1: its offset");
    is_told(broken(192, 1), "192 (0xC0)", "queue 1: the header of its ring");
    is_told(fed(&at, &["region", "-"], &bytes[..271]), "8", header);
    is_told(fed(&at, &["region", "-"], TWO_DEVICES), "0", header);
}

// ---- the command line

#[test]
fn help_and_version_are_printed() {
    let at = folder("help");
    for words in [&["--help"][..], &["-h"], &["help"]] {
        let output = run(&at, words);
        assert_eq!(output.status.code(), Some(0));
        assert!(String::from_utf8(output.stdout).unwrap().contains("cim add-disk FILE OUT"));
    }
    let help = String::from_utf8(run(&at, &["--help"]).stdout).unwrap();
    let names: Vec<&str> =
        help.lines().filter_map(|line| line.strip_prefix("  cim ")?.split(' ').next()).collect();
    assert!(names.len() > 10);
    for name in names.into_iter().filter(|name| *name != "COMMAND" && *name != "--version") {
        let output = run(&at, &[name, "--help"]);
        assert_eq!(output.status.code(), Some(0));
        assert!(String::from_utf8(output.stdout).unwrap().starts_with(&format!("cim {name}")));
    }
    prints(run(&at, &["--version"]), concat!("cim ", env!("CARGO_PKG_VERSION"), "\n"));
}

#[test]
fn a_command_line_that_is_not_understood_is_told() {
    let at = folder("usage");
    let usage = |words: &[&str], told: &str| fails(run(&at, words), &format!("cim: {told}\n"), 2);
    usage(&[], "no command is given; see `cim --help`");
    usage(&["chek", "f"], "there is no command `chek`; see `cim --help`");
    usage(&["check"], "check: takes one FILE or more, and 0 are given; see `cim check --help`");
    usage(&["list", "a", "b"], "list: takes one FILE, and 2 are given; see `cim list --help`");
    usage(
        &["check", "-", "-"],
        "check: only one input can be standard input; see `cim check --help`",
    );
    usage(&["check", "--fast", "a"], "check: there is no option `--fast`; see `cim check --help`");
    usage(&["canon", "a"], "canon: takes FILE and OUT, and 1 are given; see `cim canon --help`");
    let see = "see `cim add-disk --help`";
    let disk = ["add-disk", "a", "b", "--base", "x", "--overlay", "y", "--id"];
    usage(&disk, &format!("add-disk: `--id` lacks its value; {see}"));
    usage(&disk[..7], &format!("add-disk: `--id` is missing; {see}"));
    let wide = [&disk[..], &["4294967296"]].concat();
    usage(&wide, &format!("add-disk: `--id 4294967296` is no number from 0 to 4294967295; {see}"));
    let again = [&disk[..], &["1", "--id", "1"]].concat();
    usage(&again, &format!("add-disk: `--id` is given twice; {see}"));
    let device = [
        "add-device",
        "a",
        "b",
        "--id",
        "1",
        "--version",
        "65536",
        "--flags",
        "0",
        "--payload",
        "p",
    ];
    usage(
        &device,
        "add-device: `--version 65536` is no number from 0 to 65535; see `cim add-device --help`",
    );
    usage(
        &["message", "--hex", "0x1"],
        "message: `--hex 0x1`: `0x1` has 1 digit; each byte is two, as 07; see `cim message --help`",
    );
    usage(
        &["message", "1 11 7"],
        "message: there is no file `1 11 7`, and as hexadecimal `1` has 1 digit; each byte is two, as 07; see `cim message --help`",
    );
    usage(
        &["message", "--hex", "02 00", "f"],
        "message: takes FILE or --hex, not both, and 1 are given; see `cim message --help`",
    );
}

#[test]
fn a_file_that_cannot_be_read_is_told() {
    let at = folder("unread");
    let told = "cim: cannot read nothing: No such file or directory (os error 2)\n";
    fails(run(&at, &["check", "nothing"]), told, 3);
    fails(run(&at, &["check", "."]), "cim: cannot read .: Is a directory (os error 21)\n", 3);
}
