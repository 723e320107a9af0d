//! The library as C sees it: installed, and used by the example, which is compiled strictly and run.

use std::fs;
use std::path::{Path, PathBuf};
use std::process::{Command, Output};

const ROOT: &str = concat!(env!("CARGO_MANIFEST_DIR"), "/../..");

/// The library installed below a folder of its own.
fn installed(test: &str) -> PathBuf {
    let prefix = Path::new(env!("CARGO_TARGET_TMPDIR")).join(test);
    let _ = fs::remove_dir_all(&prefix);
    let done = Command::new(Path::new(ROOT).join("tools/install")).arg(&prefix).status().unwrap();
    assert!(done.success());
    prefix
}

/// Compiles a program with these words.
fn compiled(source: &Path, prefix: &Path, compiler: &str, words: &[&str]) -> PathBuf {
    let program = prefix.join("program");
    let output = Command::new(compiler)
        .args(words)
        .args(["-Wall", "-Wextra", "-Wpedantic", "-Werror"])
        .arg(source)
        .args(flags(prefix))
        .arg("-o")
        .arg(&program)
        .output()
        .unwrap();
    assert!(output.status.success(), "{}", String::from_utf8_lossy(&output.stderr));
    program
}

/// What pkg-config says, where there is one; else what stands in its file.
fn flags(prefix: &Path) -> Vec<String> {
    let asked = Command::new("pkg-config")
        .args(["--cflags", "--libs", "cimbrolau"])
        .env("PKG_CONFIG_PATH", prefix.join("lib/pkgconfig"))
        .output();
    match asked {
        Ok(output) if output.status.success() => {
            let said = String::from_utf8(output.stdout).unwrap();
            said.split_whitespace().map(str::to_string).collect()
        }
        _ => {
            let at = |folder: &str| prefix.join(folder).display().to_string();
            vec![format!("-I{}", at("include")), format!("-L{}", at("lib")), "-lcimbrolau".into()]
        }
    }
}

fn run(program: &Path, file: &Path) -> Output {
    Command::new(program).arg(file).output().unwrap()
}

const LISTED: &str = "\
section 4096: 14 bytes at 32
section 6: 64 bytes at 62
section 4: 120 bytes at 142
section 5: 80 bytes at 278
section 1: 50 bytes at 374
device 3, version 0, flags 0: 2 bytes at 260
device 3, version 1, flags 0: 2 bytes at 242
device 14, version 1, flags 0: 1 bytes at 225
device 256, version 1, flags 0: 47 bytes at 162
disk 1: panel.img
disk 2: messwerte-übersicht.img
";

#[test]
fn the_example_lists_the_sample_and_names_a_refusal() {
    let prefix = installed("c");
    let sample = Path::new(ROOT).join("samples/panel.aerosnap");
    let mut twice = fs::read(&sample).unwrap();
    twice[209] = 3;
    let bad = prefix.join("twice.aerosnap");
    fs::write(&bad, &twice).unwrap();
    let example = Path::new(ROOT).join("examples/list.c");
    let program = compiled(&example, &prefix, "cc", &["-std=c99"]);
    let listed = run(&program, &sample);
    assert_eq!(String::from_utf8(listed.stdout).unwrap(), LISTED);
    assert!(listed.status.success());
    let refused = run(&program, &bad);
    assert_eq!(String::from_utf8(refused.stderr).unwrap(), "refused 13 KEY at 226\n");
    assert_eq!((refused.status.code(), refused.stdout), (Some(1), vec![]));
    assert_eq!(run(&program, Path::new("/nowhere")).status.code(), Some(2));
}

/// A card made by opening, moved by edits and handed back by a refusal; each goes in and comes out by value.
const CARDS: &str = r#"
#include <cimbrolau.h>
#include <stdio.h>
static uint8_t file[64], out[64], many[71];
static void show(const char *what, struct cimbrolau_edited e) {
    printf("%s: %u %u %u, %llu %llu %llu %llu\n", what, e.number, e.index, (unsigned)e.place, (unsigned long long)e.card.length,
           (unsigned long long)e.card.sections, (unsigned long long)e.card.devices, (unsigned long long)e.card.payloads);
}
int main(void) {
    const uint8_t empty[16] = {'A', 'E', 'R', 'O', 'S', 'N', 'A', 'P', 1, 0, 1, 0, 0, 0, 0, 0};
    struct cimbrolau_edited e = cimbrolau_open(empty, 16);
    struct cimbrolau_card far = {UINT64_MAX, 2, 3, 4};
    show("open", e);
    show("short", cimbrolau_open(empty, 15));
    e = cimbrolau_add_device(empty, 16, e.card, 3, 1, 0, (const uint8_t *)"two", 2, file, 64);
    show("add", e);
    show("replace", cimbrolau_replace_device(file, 54, e.card, 3, 1, 0, (const uint8_t *)"five!", 5, out, 64));
    show("disk", cimbrolau_add_disk(file, 54, e.card, 9, (const uint8_t *)"", 0, (const uint8_t *)"", 0, out, 64));
    show("absent", cimbrolau_remove_disk(file, 54, far, 9, out, 64));
    show("untrue", cimbrolau_remove_device(file, 54, far, 3, 1, 0, out, 64));
    show("remove", cimbrolau_remove_device(file, 54, e.card, 3, 1, 0, out, 64));
    struct cimbrolau_new_device table[3] = {{14, 1, 0, 2, 1}, {3, 1, 0, 0, 2}, {14, 1, 0, 0, 0}};
    const uint8_t *bytes = (const uint8_t *)table, *store = (const uint8_t *)"abc";
    e = cimbrolau_open(empty, 16);
    show("many", cimbrolau_add_devices(empty, 16, e.card, bytes, 48, store, 3, many, 71));
    printf("%c%c%c\n", many[52], many[53], many[70]);
    show("structs", cimbrolau_add_devices_of(empty, 16, e.card, table, 2, store, 3, many, 71));
    show("again", cimbrolau_add_devices(empty, 16, e.card, bytes, 72, store, 3, many, 71));
    show("structs again", cimbrolau_add_devices_of(empty, 16, e.card, table, 3, store, 3, many, 71));
    show("outside", cimbrolau_add_devices(empty, 16, far, bytes, 72, store, 1, many, 71));
    show("room", cimbrolau_add_devices(empty, 16, far, bytes, 48, store, 3, many, 70));
    show("none", cimbrolau_add_devices(empty, 16, e.card, bytes, 23, store, 3, many, 71));
    printf("%llu %llu\n", (unsigned long long)far.length, (unsigned long long)far.payloads);
    return 0;
}
"#;

const CARDS_SHOWN: &str = "\
open: 0 0 0, 16 0 0 0
short: 1 0 0, 0 0 0 0
add: 0 0 54, 54 1 1 2
replace: 0 0 57, 57 1 1 5
disk: 16 0 86, 54 1 1 2
absent: 25 0 0, 18446744073709551615 2 3 4
untrue: 28 0 0, 18446744073709551615 2 3 4
remove: 0 0 16, 16 0 0 0
many: 0 0 71, 71 1 2 3
abc
structs: 0 0 71, 71 1 2 3
again: 17 2 0, 16 0 0 0
structs again: 17 2 0, 16 0 0 0
outside: 26 0 0, 18446744073709551615 2 3 4
room: 16 1 71, 18446744073709551615 2 3 4
none: 0 0 16, 16 0 0 0
18446744073709551615 4
";

#[test]
fn a_card_goes_in_and_comes_back() {
    let prefix = installed("cards");
    let source = prefix.join("cards.c");
    fs::write(&source, CARDS).unwrap();
    for level in ["-O0", "-O2"] {
        let program = compiled(&source, &prefix, "cc", &["-std=c99", level]);
        let shown = Command::new(&program).output().unwrap();
        assert_eq!(String::from_utf8(shown.stdout).unwrap(), CARDS_SHOWN, "{level}");
    }
}

/// The header is one of C++ too, where there is a compiler for that.
#[test]
fn the_header_is_one_of_cpp_too() {
    let prefix = installed("cpp");
    let source = prefix.join("name.cpp");
    let text = "#include <cimbrolau.h>\n\
        int main() { return cimbrolau_check(nullptr, 0).number == CIMBROLAU_SHORT && cimbrolau_name(13)[0] == 'K' ? 0 : 1; }\n";
    fs::write(&source, text).unwrap();
    let program = prefix.join("name");
    let compiler = Command::new("c++")
        .args(["-std=c++11", "-Wall", "-Wextra", "-Wpedantic", "-Werror"])
        .arg(&source)
        .args(flags(&prefix))
        .arg("-o")
        .arg(&program)
        .output();
    let Ok(output) = compiler else {
        use std::io::Write;
        let _ = writeln!(std::io::stderr(), "not run: the header in C++, c++ is not there");
        return;
    };
    assert!(output.status.success(), "{}", String::from_utf8_lossy(&output.stderr));
    assert!(Command::new(&program).status().unwrap().success());
}
