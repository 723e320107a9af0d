//! The commands that say what is in a file, and what they say to scripts.

mod common;

#[allow(dead_code)]
#[path = "../examples/panel.rs"]
mod panel;

use common::*;
use std::fs;
use std::process::{Command, Output};

fn said(output: Output) -> String {
    assert_eq!(String::from_utf8_lossy(&output.stderr), "");
    String::from_utf8(output.stdout).unwrap()
}

// ---- check

#[test]
fn check_takes_or_refuses_each_file() {
    let at = folder("check");
    put(&at, "good", TWO_DEVICES);
    put(&at, "bad", &key_again());
    put(&at, "short", &TWO_DEVICES[..15]);
    put(&at, "-q", TWO_DEVICES);
    prints(run(&at, &["check", "good"]), "good: taken\n");
    prints(run(&at, &["check", "good", "--", "-q"]), "good: taken\n-q: taken\n");
    prints(run(&at, &["check", "-q", "good"]), "");
    prints(fed(&at, &["check", "-"], TWO_DEVICES), "-: taken\n");
    fails(run(&at, &["check", "bad"]), &format!("bad: {KEY_AGAIN}"), 1);
    let told = "short: refused 1 SHORT at 0: under 16 bytes: it has 15 bytes\n\
        bytes from 0: [41] 45 52 4F 53 4E 41 50 01\n";
    fails(run(&at, &["check", "short"]), told, 1);
    let told = "-: refused 1 SHORT at 0: under 16 bytes: it has 0 bytes\n";
    fails(fed(&at, &["check", "-"], b""), told, 1);

    let several = run(&at, &["check", "bad", "good", "nothing", "short"]);
    assert_eq!(several.status.code(), Some(3));
    assert_eq!(String::from_utf8_lossy(&several.stdout), "good: taken\n");
    let complaints = String::from_utf8(several.stderr).unwrap();
    assert_eq!(complaints.lines().count(), 5, "{complaints}");
    assert!(complaints.contains("cim: cannot read nothing: No such file"), "{complaints}");
    assert_eq!(run(&at, &["check", "good", "bad", "good"]).status.code(), Some(1));
}

#[test]
fn check_says_all_of_it_as_json_too() {
    let at = folder("check_json");
    put(&at, "good", TWO_DEVICES);
    put(&at, "bad\n", &key_again());
    let output = run(&at, &["check", "--json", "good", "bad\n", "nothing"]);
    assert_eq!(output.status.code(), Some(3));
    assert_eq!(output.stderr, b"");
    let expected = r#"{"what":"check","file":"good","verdict":"taken"}
{"what":"check","file":"bad\\n","verdict":"refused","number":13,"name":"KEY","place":53,"meaning":"key again","where":"DEVICES, entry 1 (device 3 PIT, version 1, flags 0), the same key as entry 0 at 36","bytes_from":45,"bytes":"00 00 00 00 00 00 00 11 [03] 00 00 00 01 00 00 00 02"}
{"what":"check","file":"nothing","verdict":"unread","why":"cannot read nothing: No such file or directory (os error 2)"}
"#;
    assert_eq!(String::from_utf8(output.stdout).unwrap(), expected);
    let refused = run(&at, &["list", "--json", "bad\n"]);
    assert_eq!(refused.status.code(), Some(1));
    let object = String::from_utf8(refused.stdout).unwrap();
    assert!(object.starts_with(r#"{"what":"refused","number":13,"name":"KEY","#), "{object}");
}

/// The list of 2044 devices whose last has the key of the first: the words come soon.
#[test]
fn a_long_list_is_searched_soon() {
    let at = folder("long_list");
    let mut list = 2044u32.to_le_bytes().to_vec();
    for entry in 0..2044u32 {
        list.extend((entry % 2043).to_le_bytes());
        list.extend([1, 0, 0, 0, 7, 0, 0, 0, 0, 0, 0, 0]);
        list.extend([0; 7]);
    }
    let mut file = TWO_DEVICES[..24].to_vec();
    file.extend((list.len() as u64).to_le_bytes());
    file.extend(list);
    put(&at, "dup", &file);
    let told = "dup: refused 13 KEY at 47025 (0xB7B1): key again: \
        DEVICES, entry 2043 (device 0, version 1, flags 0), the same key as entry 0 at 36\n";
    let output = run(&at, &["check", "dup"]);
    let complaint = String::from_utf8(output.stderr).unwrap();
    assert!(complaint.starts_with(told), "{complaint}");
}

// ---- explain

#[test]
fn explain_prints_the_row_of_the_card() {
    let at = folder("explain");
    let row = "13 KEY: a key comes again\nplace: the later entry's start\n\
        what to do: Two savers wrote the same device, disk, CPU or controller. Ask which one holds.\n";
    for word in ["13", "KEY", "key"] {
        prints(run(&at, &["explain", word]), row);
    }
    for word in ["19", "0", "KEYS", ""] {
        assert_eq!(run(&at, &["explain", word]).status.code(), Some(2), "{word}");
    }
    let object = said(run(&at, &["explain", "--json", "8"]));
    assert!(object.starts_with(r#"{"what":"refusal","number":8,"name":"MANY","#), "{object}");
}

// ---- show

#[test]
fn show_says_what_is_in_a_file() {
    let at = folder("show");
    put(&at, "panel", &panel::panel());
    let shown = said(run(&at, &["show", "panel"]));
    for line in [
        "panel: 424 bytes, 5 sections, not in canonical form\n",
        "\n  1  RAM          version 1              64 bytes at 62          19% ####\n",
        "\n     device 3 PIT, version 1, flags 0: 2 bytes at 242, entry 2\n",
        "\n     disk 2: base \"messwerte-übersicht.img\", overlay \"\", entry 0\n",
    ] {
        assert!(shown.contains(line), "{line}{shown}");
    }
    run(&at, &["canon", "panel", "panel"]);
    assert!(said(run(&at, &["show", "panel"])).contains(", in canonical form\n"));
}

#[test]
fn show_tells_zeros_behind_a_file() {
    let at = folder("zeros");
    let zeros = |sections: usize| [TWO_DEVICES, &vec![0; 16 * sections]].concat();
    put(&at, "taken", &zeros(63));
    let shown = said(run(&at, &["show", "taken"]));
    assert_eq!(shown.matches("id 0 (zeros)").count(), 63, "{shown}");
    put(&at, "many", &zeros(64));
    let told = "many: refused 8 MANY at 1079 (0x437): 65th section: section 64 (id 0, version 0, flags 0); \
        from here on all bytes are 0, and 16 of them are a section of id 0\n\
        bytes from 1071: 00 00 00 00 00 00 00 00 [00] 00 00 00 00 00 00 00 00\n";
    fails(run(&at, &["check", "many"]), told, 1);
}

// ---- diff

#[test]
fn diff_compares_content() {
    let at = folder("diff");
    put(&at, "panel", &panel::panel());
    assert!(run(&at, &["canon", "panel", "night"]).status.success());
    prints(run(&at, &["diff", "panel", "night"]), "same content\n");
    prints(run(&at, &["diff", "--json", "panel", "night"]), "{\"what\":\"diff\",\"same\":true}\n");
    let other = |words: &[&str], expected: &str| {
        let output = run(&at, words);
        assert_eq!(String::from_utf8_lossy(&output.stderr), "");
        assert_eq!(String::from_utf8_lossy(&output.stdout), format!("other content\n{expected}"));
        assert_eq!(output.status.code(), Some(1));
    };
    // RAM's 13th byte, the payload of device 14, the last letter of disk 1's overlay.
    let mut changed = panel::panel();
    (changed[62 + 12], changed[225], changed[357]) = (0, 0x12, b'x');
    put(&at, "changed", &changed);
    other(
        &["diff", "panel", "changed"],
        "section RAM, version 1, flags 0: other payload from its byte 12 on\n\
         device 14 PCI_CFG, version 1, flags 0: other payload from its byte 0 on\n\
         disk 1: other overlay from its byte 18 on: \"panel-night.overlay\" and \"panel-night.overlax\"\n",
    );
    put(&at, "none", &TWO_DEVICES[..16]);
    put(&at, "two", TWO_DEVICES);
    other(
        &["diff", "none", "two"],
        "device 3 PIT, version 1, flags 0: only in two\n\
         device 14 PCI_CFG, version 1, flags 0: only in two\n",
    );
    fails(
        run(&at, &["diff", "-", "-"]),
        "cim: diff: only one input can be standard input; see `cim diff --help`\n",
        2,
    );
    put(&at, "bad", &key_again());
    fails(run(&at, &["diff", "two", "bad"]), &format!("bad: {KEY_AGAIN}"), 1);
}

#[test]
fn diff_tells_sections_that_the_format_does_not_know_apart() {
    let at = folder("diff_unknown");
    let unknown = |id: u8, byte: u8| {
        let mut section = vec![id, 0, 0, 0, 1, 0, 0, 0, 1, 0, 0, 0, 0, 0, 0, 0];
        section.push(byte);
        section
    };
    let file = |sections: &[Vec<u8>]| [&TWO_DEVICES[..16], &sections.concat()].concat();
    put(&at, "a", &file(&[unknown(9, 1), unknown(10, 1), unknown(9, 2)]));
    put(&at, "b", &file(&[unknown(9, 1), unknown(9, 2), unknown(10, 1)]));
    put(&at, "c", &file(&[unknown(9, 2), unknown(9, 1), unknown(10, 1)]));
    let other = |one, two| {
        let output = run(&at, &["diff", one, two]);
        assert_eq!(output.status.code(), Some(1));
        String::from_utf8(output.stdout).unwrap()
    };
    let order = "other content\nsections that the format does not know stand in another order\n";
    assert_eq!(other("a", "b"), order);
    let told = "other content\n\
        section id 9, version 1, flags 0: other payload from its byte 0 on\n\
        section id 9, version 1, flags 0, number 1 of them: other payload from its byte 0 on\n";
    assert_eq!(other("b", "c"), told);
}

// ---- extract

#[test]
fn extract_writes_a_part() {
    let at = folder("extract");
    put(&at, "panel", &panel::panel());
    let piped = |words: &[&str]| said(run(&at, &[&["extract", "panel", "-"], words].concat()));
    assert_eq!(piped(&["--section", "4096"]), "boiler house 2");
    assert_eq!(piped(&["--section=4096,0"]), "boiler house 2");
    let meta = run(&at, &["extract", "panel", "-", "--section", "meta"]);
    assert_eq!(meta.stdout, panel::panel()[374..]);
    assert_eq!(piped(&["--device", "3,1,0"]), "\x0F\0");
    assert_eq!(piped(&["--device", "0x0E"]), "\x11");
    assert_eq!(piped(&["--disk", "1"]), "panel.img\npanel-night.overlay\n");
    prints(run(&at, &["extract", "panel", "out", "--device", "14"]), "1 byte written to out\n");
    assert_eq!(fs::read(at.join("out")).unwrap(), [0x11]);
    let refused = |words: &[&str], told: &str, status| {
        let words = [&["extract", "panel", "new"], words].concat();
        fails(run(&at, &words), &format!("cim: {told}\n"), status);
    };
    let see = "see `cim extract --help`";
    refused(&["--device", "18"], "there is no device 18", 1);
    refused(&["--section", "4096,1"], "there is no section 4096,1", 1);
    refused(&["--disk", "9"], "there is no disk 9", 1);
    let twice = "extract: device 3 is there 2 times; say which, as ID,VERSION,FLAGS";
    refused(&["--device", "3"], &format!("{twice}; {see}"), 2);
    let none = "extract: takes one of `--device`, `--section`, `--disk` and `--cpu`";
    refused(&[], &format!("{none}; {see}"), 2);
    refused(&["--disk", "1", "--device", "14"], &format!("{none}; {see}"), 2);
    let letters = "extract: `--device x` is no number, nor numbers by commas";
    refused(&["--device", "x"], &format!("{letters}; {see}"), 2);
    assert_eq!(names(&at), ["out", "panel"]);
}

#[test]
fn wrapper_goes_on_from_a_snapshot() {
    let at = folder("wrapper_in");
    put(&at, "panel", &panel::panel());
    let listing = "address bus device function tag offset length position\n\
        250 0 31 2 SATA 45 2 1\n256 1 0 0 NVME 32 1 0\n";
    prints(run(&at, &["wrapper", "panel", "--device", "256"]), listing);
    let told = "device 14 PCI_CFG, version 1, flags 0: \
        refused 1 SHORT at 0: under 16 bytes: it has 1 byte\nbytes from 0: [11]\n";
    fails(run(&at, &["wrapper", "panel", "--device", "14"]), told, 1);
}

#[test]
fn no_clobber_keeps_what_is_there() {
    let at = folder("no_clobber");
    put(&at, "in", TWO_DEVICES);
    put(&at, "out", b"old");
    let told = "cim: cannot write out: it is there already\n";
    fails(run(&at, &["canon", "--no-clobber", "in", "out"]), told, 3);
    assert_eq!(fs::read(at.join("out")).unwrap(), b"old");
    prints(run(&at, &["canon", "--no-clobber", "in", "new"]), "71 bytes written to new\n");
    assert_eq!(names(&at), ["in", "new", "out"]);
    let object = said(run(&at, &["canon", "--json", "in", "new"]));
    assert_eq!(object, "{\"what\":\"written\",\"file\":\"new\",\"bytes\":71}\n");
}

// ---- sheet, set

const STATES: &[u8] = include_bytes!("../../../samples/states.aerosnap");

/// A file with one state in a section of its own.
fn single(id: u8, version: u8, state: &[u8]) -> Vec<u8> {
    let mut file = b"AEROSNAP\x01\x00\x01\x00\x00\x00\x00\x00".to_vec();
    file.extend([id, 0, 0, 0, version, 0, 0, 0]);
    file.extend((state.len() as u64).to_le_bytes());
    file.extend(state);
    file
}

#[test]
fn sheets_of_the_cpu_that_is_meant() {
    let at = folder("sheet");
    put(&at, "states", STATES);
    put(&at, "one", &single(2, 2, &[0; 1183]));
    put(&at, "old", &single(2, 1, &[0; 412]));
    put(&at, "mmu", &single(3, 2, &[0; 264]));
    let zero = said(run(&at, &["sheet", "states", "--cpu", "0"]));
    assert!(
        zero.starts_with("CPU 0, 1191 bytes at 1251\n  RAX 000000000000001F RCX 00000000FFFFFFFF ")
    );
    assert!(zero.contains("  RFLAGS 0000000000000246: PF ZF IF\n"));
    assert!(zero.contains("\nMMU 0, 264 bytes at 2746\n  CR0 0000000080050033 "));
    assert!(said(run(&at, &["sheet", "one"])).starts_with("CPU, 1183 bytes at 32\n"));
    let told =
        "cim: sheet: CPU is there 2 times; say which, as --cpu APIC; see `cim sheet --help`\n";
    fails(run(&at, &["sheet", "states"]), told, 2);
    fails(run(&at, &["sheet", "states", "--cpu", "2"]), "cim: there is no CPU 2\n", 1);
    fails(run(&at, &["sheet", "mmu"]), "cim: there is no CPU\n", 1);
    let told = "cim: there is no sheet of CPU: a state of 412 bytes is of version 1\n";
    fails(run(&at, &["sheet", "old"]), told, 1);
}

#[test]
fn diff_tells_which_cpu_and_which_mmu_differ() {
    let at = folder("diff-states");
    put(&at, "states", STATES);
    let set = |from: &str, to: &str, cpu: &str, field: &str| {
        run(&at, &["set", from, to, "--cpu", cpu, "--field", field])
    };
    prints(set("states", "one", "0", "rip=5"), "3010 bytes written to one\n");
    prints(set("one", "two", "1", "cr3=7"), "3010 bytes written to two\n");
    let told = "other content\n\
        CPU 0: other state from its byte 128 on\n\
        MMU 1: other state from its byte 16 on\n";
    let output = run(&at, &["diff", "states", "two"]);
    assert_eq!((output.status.code(), &*String::from_utf8_lossy(&output.stdout)), (Some(1), told));
    // The canonical form has them in another order, and the same content.
    run(&at, &["canon", "states", "canonical"]);
    prints(run(&at, &["diff", "states", "canonical"]), "same content\n");
    put(&at, "none", &STATES[..16]);
    let told = "other content\n\
        CPU 0: only in states\n\
        CPU 1: only in states\n\
        MMU 0: only in states\n\
        MMU 1: only in states\n";
    let output = run(&at, &["diff", "states", "none"]);
    assert_eq!((output.status.code(), &*String::from_utf8_lossy(&output.stdout)), (Some(1), told));
}

#[test]
fn set_changes_one_field_and_no_other_byte() {
    let at = folder("set");
    put(&at, "states", STATES);
    let set = |field: &str| run(&at, &["set", "states", "new", "--cpu", "1", "--field", field]);
    let different = |places: &[usize]| {
        let new = fs::read(at.join("new")).unwrap();
        assert_eq!(new.len(), STATES.len());
        let other: Vec<usize> = (0..new.len()).filter(|at| new[*at] != STATES[*at]).collect();
        assert_eq!(other, places);
        fs::remove_file(at.join("new")).unwrap();
    };
    prints(set("rip=0x7C00"), "3010 bytes written to new\n");
    different(&[44 + 128, 44 + 129]);
    prints(set("RAX=255"), "3010 bytes written to new\n");
    different(&[44]);
    prints(set("cr3=0x1_0000_2000"), "3010 bytes written to new\n");
    different(&[2478 + 20]);
    prints(set("xmm15=1"), "3010 bytes written to new\n");
    let all = fs::read(at.join("new")).unwrap();
    let place = (0..all.len()).find(|at| all[*at] != STATES[*at]).unwrap();
    different(&[place]);
    let refused = "refused 15 VALUE at 144 (0x90): byte or number outside its values: mode of CPU 1, whose state starts at 44\n\
        bytes from 136: 02 00 00 00 00 00 00 00 [02] 01 00 00 00 00 00 00 00\n";
    fails(set("mode=4"), refused, 1);
    for (field, told) in [
        ("mode=256", "256 does not fit the field's 1 bytes"),
        ("fxsave=0", "a field of 512 bytes is no number"),
        ("cr1=0", "`cr1` is no field; `cim sheet` shows them"),
        ("rip", "`--field rip` is no NAME=VALUE"),
        ("rip=x", "`x` is no number of up to 128 bits"),
    ] {
        fails(set(field), &format!("cim: set: {told}; see `cim set --help`\n"), 2);
    }
    assert_eq!(names(&at), ["states"]);
}

// ---- JSON

/// Each object that a command prints has the members that docs/JSON.md names, in that order, and no other.
#[test]
fn json_has_the_names_of_its_page() {
    let page = include_str!("../../../docs/JSON.md");
    let rows: Vec<(&str, Vec<&str>)> = page
        .lines()
        .filter_map(|line| {
            let mut cells = line.strip_prefix("| `")?.split(" | ");
            let what = cells.next()?.strip_suffix('`').filter(|what| *what != "what")?;
            let members = cells.nth(1)?;
            Some((what, members.split('`').skip(1).step_by(2).collect()))
        })
        .collect();
    assert!(rows.len() > 10);
    let at = folder("json");
    put(&at, "panel", &panel::panel());
    put(&at, "two", TWO_DEVICES);
    put(&at, "bad", &key_again());
    put(&at, "list", b"3 1 0 two\n");
    put(&at, "states", STATES);
    let region = concat!(env!("CARGO_MANIFEST_DIR"), "/../../samples/panel.region");
    let mut seen = Vec::new();
    for words in [
        &["check", "panel", "bad", "nothing"][..],
        &["explain", "1"],
        &["list", "panel"],
        &["list", "bad"],
        &["show", "panel"],
        &["show", "states"],
        &["sheet", "states", "--cpu=0"],
        &["card", "two"],
        &["ready", "two"],
        &["diff", "panel", "two"],
        &["canon", "two", "new"],
        &["salvage", "bad", "saved"],
        &["add-devices", "two", "never", "--from", "list"],
        &["wrapper", "panel", "--device=256"],
        &["message", "0014030300 0000616263"],
        &["region", region],
    ] {
        let output = run(&at, &[words, &["--json"]].concat());
        for line in String::from_utf8(output.stdout).unwrap().lines() {
            let names = members(line);
            let what = line.split('"').nth(3).unwrap();
            let (_, known) = rows.iter().find(|(row, _)| *row == what).expect(what);
            let refused = &rows.iter().find(|(row, _)| *row == "refused").unwrap().1;
            let is_known = |name: &String| {
                let name = name.as_str();
                known.contains(&name) || what == "check" && refused.contains(&name)
            };
            let free = ["message", "record", "cpu_sheet", "mmu_sheet"].contains(&what);
            assert!(free || names.iter().skip(1).all(is_known), "{line}");
            seen.push(what.to_string());
        }
    }
    for (what, _) in rows {
        assert!(seen.iter().any(|seen| seen == what), "no line is about {what}");
    }
}

/// The names of the members of an object, those of inner ones apart.
fn members(line: &str) -> Vec<String> {
    let (mut names, mut depth, mut text, mut escaped) = (Vec::new(), 0, None, false);
    for letter in line.chars() {
        match (&mut text, letter) {
            (Some(_), _) if escaped => escaped = false,
            (Some(_), '\\') => escaped = true,
            (Some(word), '"') => {
                names.push((depth, std::mem::take::<String>(word)));
                text = None;
            }
            (Some(word), letter) => word.push(letter),
            (None, '"') => text = Some(String::new()),
            (None, '{') => depth += 1,
            (None, '}') => depth -= 1,
            (None, ':') => names.last_mut().unwrap().0 += 100,
            _ => (),
        }
    }
    names.into_iter().filter(|(depth, _)| *depth == 101).map(|(_, name)| name).collect()
}

// ---- what is made from the table of commands

#[test]
fn the_manual_page_says_what_the_help_says() {
    let at = folder("manual");
    let page = said(run(&at, &["manual"]));
    assert_eq!(page, include_str!("../../../docs/cim.1"), "make it anew: cim manual > docs/cim.1");
    let plain = page.replace("\\-", "-").replace("\\e", "\\").replace("\\&", "");
    let help = said(run(&at, &["--help"]));
    let names: Vec<&str> =
        help.lines().filter_map(|line| line.strip_prefix("  cim ")?.split(' ').next()).collect();
    for name in names.into_iter().filter(|name| *name != "COMMAND" && *name != "--version") {
        for line in said(run(&at, &[name, "--help"])).lines() {
            // An option and what it does stand on lines of their own.
            for part in line.trim().split("    ").map(str::trim) {
                assert!(part == "Options:" || plain.contains(part), "{name}: {part}");
            }
        }
    }
    for line in help.lines().skip_while(|line| !line.starts_with('`')) {
        assert!(plain.contains(line), "{line}");
    }
}

#[test]
fn shells_offer_commands_and_options() {
    let at = folder("completions");
    for shell in ["bash", "zsh", "fish"] {
        let script = said(run(&at, &["completions", shell]));
        for word in ["add-device", "overlay", "no-clobber", "explain"] {
            assert!(script.contains(word), "{shell}: {word}");
        }
    }
    assert_eq!(run(&at, &["completions", "csh"]).status.code(), Some(2));
    let script = put(&at, "cim.bash", &run(&at, &["completions", "bash"]).stdout);
    let offered = |words: &str, number: usize| {
        let ask = format!(
            ". {}; COMP_WORDS=({words}); COMP_CWORD={number}; _cim; echo \"${{COMPREPLY[*]}}\"",
            script.display()
        );
        let output = Command::new("bash").args(["-c", &ask]).current_dir(&at).output().unwrap();
        said(output)
    };
    assert_eq!(offered("cim ex", 1), "explain extract\n");
    assert_eq!(offered("cim canon --", 2), "--no-clobber --json --help\n");
    assert_eq!(offered("cim check cim", 2), "cim.bash\n");
}

#[test]
fn file_tells_snapshots_by_their_first_bytes() {
    let at = folder("magic");
    put(&at, "panel", &panel::panel());
    put(&at, "wrapper", &run(&at, &["extract", "panel", "-", "--device", "256"]).stdout);
    put(&at, "other", b"AERODYNE");
    let magic = concat!(env!("CARGO_MANIFEST_DIR"), "/../../docs/magic");
    let region = concat!(env!("CARGO_MANIFEST_DIR"), "/../../samples/panel.region");
    let told = |name: &str| {
        Command::new("file").args(["-b", "-m", magic, name]).current_dir(&at).output().map(said)
    };
    let Ok(panel) = told("panel") else {
        not_run("docs/magic, file(1) is not there");
        return;
    };
    assert_eq!(panel, "AEROSNAP snapshot, version 1\n");
    assert_eq!(told("wrapper").unwrap(), "DSKC disk-controller wrapper, controllers: 2\n");
    assert_eq!(told(region).unwrap(), "AIPC region of rings, version 1, queues: 2\n");
    assert!(!told("other").unwrap().contains("AERO"));
}
