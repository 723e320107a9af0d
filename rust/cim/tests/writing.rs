//! What is left of files: whatever happens while `cim` writes, the target is the old file or the new one, whole, and nothing
//! else stays in the folder.

mod common;

use common::*;
use std::fs;
use std::io::Write;
use std::os::unix::fs::{chown, symlink, MetadataExt, PermissionsExt};
use std::os::unix::process::{CommandExt, ExitStatusExt};
use std::path::{Path, PathBuf};
use std::process::{Child, Command, ExitStatus, Output, Stdio};
use std::time::{Duration, Instant};

#[test]
fn a_refusal_keeps_the_target() {
    let at = folder("kept");
    put(&at, "bad", &key_again());
    put(&at, "out", b"old");
    fails(run(&at, &["canon", "bad", "out"]), KEY_AGAIN, 1);
    assert_eq!(fs::read(at.join("out")).unwrap(), b"old");
    assert_eq!(names(&at), ["bad", "out"]);
}

#[test]
fn a_folder_that_is_not_there_is_told() {
    let at = folder("nowhere");
    put(&at, "in", TWO_DEVICES);
    let told = "cim: cannot write nowhere/out: No such file or directory (os error 2)\n";
    fails(run(&at, &["canon", "in", "nowhere/out"]), told, 3);
    let told = "cim: cannot write in/out: Not a directory (os error 20)\n";
    fails(run(&at, &["canon", "in", "in/out"]), told, 3);
    assert_eq!(names(&at), ["in"]);
}

#[test]
fn what_is_no_file_or_is_read_only_is_not_replaced() {
    let at = folder("no_file");
    put(&at, "in", TWO_DEVICES);
    fs::create_dir(at.join("folder")).unwrap();
    let told = "cim: cannot write folder: it is there, and not a file (`-` is standard output)\n";
    fails(run(&at, &["canon", "in", "folder"]), told, 3);

    let kept = put(&at, "kept", b"old");
    let mut permissions = fs::metadata(&kept).unwrap().permissions();
    permissions.set_readonly(true);
    fs::set_permissions(&kept, permissions).unwrap();
    fails(
        run(&at, &["canon", "in", "kept"]),
        "cim: cannot write kept: it is there, and read-only\n",
        3,
    );
    assert_eq!(fs::read(&kept).unwrap(), b"old");
    assert_eq!(names(&at), ["folder", "in", "kept"]);
}

/// Removes a folder with links in it: `rt ci` wants none in the checkout.
fn gone(at: &Path) {
    fs::remove_dir_all(at).unwrap();
}

#[test]
fn a_link_stays_and_permissions_too() {
    let at = folder("link");
    put(&at, "in", TWO_DEVICES);
    fs::create_dir(at.join("store")).unwrap();
    let real = put(&at, "store/real", b"old");
    fs::set_permissions(&real, fs::Permissions::from_mode(0o640)).unwrap();
    symlink("store/real", at.join("link")).unwrap();
    prints(run(&at, &["canon", "in", "link"]), "71 bytes written to link\n");
    assert!(fs::symlink_metadata(at.join("link")).unwrap().is_symlink());
    assert_eq!(fs::read(&real).unwrap().len(), 71);
    assert_eq!(fs::metadata(&real).unwrap().permissions().mode() & 0o777, 0o640);
    assert_eq!(names(&at.join("store")), ["real"]);
    gone(&at);
}

/// Runs `cim canon in out` where no file can grow past a few KiB, so that writing fails half-way. `guard` is what the
/// shell does first.
fn cut_short(at: &Path, guard: &str) -> Output {
    let mut file = TWO_DEVICES[..16].to_vec();
    file.extend(b"\x06\x00\x00\x00\x01\x00\x00\x00\x00\x00\x10\x00\x00\x00\x00\x00"); // RAM, 1 MiB
    file.resize(32 + (1 << 20), 7);
    put(at, "in", &file);
    put(at, "out", b"old");
    Command::new("sh")
        .args([
            "-c",
            &format!("{guard} ulimit -f 8; exec \"$0\" canon in out"),
            env!("CARGO_BIN_EXE_cim"),
        ])
        .current_dir(at)
        .output()
        .unwrap()
}

#[test]
fn a_write_that_fails_half_way_leaves_the_old_file_and_nothing_else() {
    let at = folder("half");
    // With the signal ignored, the system reports the fault to the program.
    let output = cut_short(&at, "trap '' XFSZ;");
    fails(output, "cim: cannot write out: File too large (os error 27)\n", 3);
    assert_eq!(fs::read(at.join("out")).unwrap(), b"old");
    assert_eq!(names(&at), ["in", "out"]);
}

#[test]
fn a_kill_half_way_leaves_the_old_file() {
    let at = folder("killed");
    // Without, the system kills the program in the middle of its write.
    let output = cut_short(&at, "");
    assert_eq!(output.status.code(), None);
    assert_eq!(fs::read(at.join("out")).unwrap(), b"old");
}

#[test]
fn an_output_that_nobody_reads_ends_quietly() {
    let at = folder("closed");
    let mut child = cim(&at)
        .args(["list", "-"])
        .stdin(Stdio::piped())
        .stdout(Stdio::piped())
        .stderr(Stdio::piped())
        .spawn()
        .unwrap();
    drop(child.stdout.take());
    child.stdin.take().unwrap().write_all(TWO_DEVICES).unwrap();
    fails(child.wait_with_output().unwrap(), "", 3);
}

#[test]
fn a_refusal_that_nobody_reads_keeps_its_status() {
    let at = folder("unheard");
    put(&at, "in", &key_again());
    let full = fs::OpenOptions::new().write(true).open("/dev/full").unwrap();
    let output = cim(&at).args(["check", "in"]).stderr(full).output().unwrap();
    assert_eq!(output.status.code(), Some(1));
}

#[test]
fn an_output_with_no_room_is_told() {
    let at = folder("full");
    put(&at, "in", TWO_DEVICES);
    let full = fs::OpenOptions::new().write(true).open("/dev/full").unwrap();
    let output = cim(&at).args(["list", "in"]).stdout(full).output().unwrap();
    fails(
        output,
        "cim: cannot write to standard output: No space left on device (os error 28)\n",
        3,
    );
}

// ---- owners and rights

/// A plain user, for what root may do and others may not.
const SOMEBODY: u32 = 1000;

/// Whether this runs as root; said where it does not, since the test then proves nothing.
fn root(test: &str) -> bool {
    let is_root = fs::metadata("/proc/self").unwrap().uid() == 0;
    if !is_root {
        not_run(&format!("{test}, it takes root to change owners"));
    }
    is_root
}

/// A folder in which a plain user may write, and the command copied to where that user may run it.
fn common_folder(test: &str) -> (PathBuf, PathBuf) {
    let at = std::env::temp_dir().join(format!("cim-{test}-{}", std::process::id()));
    let _ = fs::remove_dir_all(&at);
    fs::create_dir_all(&at).unwrap();
    let program = at.join("bin");
    // By another process: a file that this one writes is busy for as long as a child of another test holds it.
    let copied = Command::new("cp").arg(env!("CARGO_BIN_EXE_cim")).arg(&program).status().unwrap();
    assert!(copied.success());
    let folder = at.join("folder");
    fs::create_dir(&folder).unwrap();
    fs::set_permissions(&folder, fs::Permissions::from_mode(0o777)).unwrap();
    (program, folder)
}

fn as_somebody(program: &Path, at: &Path, words: &[&str]) -> Output {
    Command::new(program).args(words).current_dir(at).uid(SOMEBODY).gid(SOMEBODY).output().unwrap()
}

#[test]
fn the_owner_and_the_group_of_a_replaced_file_stay() {
    if !root("owner") {
        return;
    }
    let at = folder("owner");
    let own = put(&at, "own", TWO_DEVICES);
    chown(&own, Some(SOMEBODY), Some(SOMEBODY + 1)).unwrap();
    fs::set_permissions(&own, fs::Permissions::from_mode(0o4640)).unwrap();
    prints(run(&at, &["canon", "own", "own"]), "71 bytes written to own\n");
    let new = fs::metadata(&own).unwrap();
    assert_eq!((new.uid(), new.gid()), (SOMEBODY, SOMEBODY + 1));
    assert_eq!(new.permissions().mode() & 0o7777, 0o4640);
}

#[test]
fn an_owner_that_cannot_be_kept_keeps_the_file() {
    if !root("owner_lost") {
        return;
    }
    let (program, at) = common_folder("owner-lost");
    let own = put(&at, "own", TWO_DEVICES);
    fs::set_permissions(&own, fs::Permissions::from_mode(0o666)).unwrap();
    let told = "cim: cannot write own: its owner and group, 0:0, cannot be kept: \
        Operation not permitted (os error 1)\n";
    fails(as_somebody(&program, &at, &["canon", "own", "own"]), told, 3);
    assert_eq!(fs::read(&own).unwrap(), TWO_DEVICES);
    assert_eq!(names(&at), ["own"]);
    fs::remove_dir_all(at.parent().unwrap()).unwrap();
}

#[test]
fn a_file_that_the_caller_may_not_write_is_not_replaced() {
    if !root("not_mine") {
        return;
    }
    let (program, at) = common_folder("not-mine");
    put(&at, "in", TWO_DEVICES);
    let kept = put(&at, "kept", b"old");
    fs::set_permissions(&kept, fs::Permissions::from_mode(0o644)).unwrap();
    let told = "cim: cannot write kept: Permission denied (os error 13)\n";
    fails(as_somebody(&program, &at, &["canon", "in", "kept"]), told, 3);
    assert_eq!(fs::read(&kept).unwrap(), b"old");
    // A new file in the same folder is nobody else's.
    let output = as_somebody(&program, &at, &["canon", "in", "new"]);
    prints(output, "71 bytes written to new\n");
    assert_eq!(fs::metadata(at.join("new")).unwrap().uid(), SOMEBODY);
    assert_eq!(names(&at), ["in", "kept", "new"]);
    fs::remove_dir_all(at.parent().unwrap()).unwrap();
}

#[test]
fn a_link_to_what_is_not_there_stays_a_link() {
    let at = folder("dangling");
    put(&at, "in", TWO_DEVICES);
    fs::create_dir(at.join("store")).unwrap();
    symlink("store/second", at.join("first")).unwrap();
    symlink("real", at.join("store/second")).unwrap();
    prints(run(&at, &["canon", "in", "first"]), "71 bytes written to first\n");
    assert!(fs::symlink_metadata(at.join("first")).unwrap().is_symlink());
    assert!(fs::symlink_metadata(at.join("store/second")).unwrap().is_symlink());
    assert_eq!(fs::read(at.join("store/real")).unwrap().len(), 71);
    symlink("round", at.join("round")).unwrap();
    let told = "cim: cannot write round: its links lead to no end\n";
    fails(run(&at, &["canon", "in", "round"]), told, 3);
    assert_eq!(names(&at), ["first", "in", "round", "store"]);
    gone(&at);
}

// ---- memory

/// A file whose RAM has so many MiB, all of them zeros that take no room on the disk.
fn large(at: &Path, name: &str, mebibytes: u64) {
    let mut start = TWO_DEVICES[..16].to_vec();
    start.extend(b"\x06\x00\x00\x00\x01\x00\x00\x00");
    start.extend((mebibytes << 20).to_le_bytes());
    let path = put(at, name, &start);
    let file = fs::OpenOptions::new().write(true).open(path).unwrap();
    file.set_len(32 + (mebibytes << 20)).unwrap();
}

#[test]
fn too_little_memory_is_told() {
    let at = folder("memory");
    large(&at, "in", 128);
    put(&at, "out", b"old");
    let within = |kibibytes: u64, words: &str| {
        Command::new("sh")
            .args(["-c", &format!("ulimit -v {kibibytes}; exec \"$0\" {words}")])
            .arg(env!("CARGO_BIN_EXE_cim"))
            .current_dir(&at)
            .output()
            .unwrap()
    };
    let told = "cim: out of memory: the output takes 134217760 bytes\n";
    fails(within(180_000, "canon in out"), told, 3);
    let told = "cim: cannot read in: out of memory\n";
    fails(within(100_000, "check in"), told, 3);
    fails(within(100_000, "canon in out"), told, 3);
    let told = "cim: cannot read standard input: out of memory\n";
    fails(within(100_000, "check - <in"), told, 3);
    assert_eq!(fs::read(at.join("out")).unwrap(), b"old");
    assert_eq!(names(&at), ["in", "out"]);
}

// ---- others at the same file

/// The words that add a device of this id to `par`, its payload from standard input.
fn adding(id: &str) -> [&str; 11] {
    ["add-device", "par", "par", "--id", id, "--version", "1", "--flags", "0", "--payload", "-"]
}

/// Starts an add that has claimed its target, has read its file and waits for its payload.
fn waiting(at: &Path, id: &str) -> Child {
    let child = cim(at)
        .args(adding(id))
        .stdin(Stdio::piped())
        .stdout(Stdio::piped())
        .stderr(Stdio::piped())
        .spawn()
        .unwrap();
    let start = Instant::now();
    while !names(at).iter().any(|name| name.ends_with("-part")) {
        assert!(start.elapsed() < Duration::from_secs(20), "nothing is claimed");
        std::thread::sleep(Duration::from_millis(1));
    }
    std::thread::sleep(Duration::from_millis(300));
    child
}

#[test]
fn adds_at_once_are_all_there_afterwards() {
    let at = folder("at_once");
    put(&at, "par", &TWO_DEVICES[..16]);
    let ids: Vec<String> = (1..=8).map(|id| id.to_string()).collect();
    let start = |id: &String| {
        let mut child = cim(&at)
            .args(adding(id))
            .stdin(Stdio::piped())
            .stdout(Stdio::piped())
            .stderr(Stdio::piped())
            .spawn()
            .unwrap();
        child.stdin.take().unwrap().write_all(b"payload").unwrap();
        child
    };
    let children: Vec<Child> = ids.iter().map(start).collect();
    for child in children {
        let output = child.wait_with_output().unwrap();
        assert_eq!(String::from_utf8_lossy(&output.stderr), "");
        assert_eq!(output.status.code(), Some(0));
    }
    let listing = String::from_utf8(run(&at, &["list", "par"]).stdout).unwrap();
    assert_eq!(listing.matches("\ndevice ").count(), 8, "{listing}");
    assert_eq!(names(&at), ["par"]);
}

#[test]
fn a_file_that_changed_since_it_was_read_is_kept() {
    let at = folder("changed");
    let par = put(&at, "par", &TWO_DEVICES[..16]);
    let mut child = waiting(&at, "9");
    fs::write(&par, TWO_DEVICES).unwrap();
    child.stdin.take().unwrap().write_all(b"payload").unwrap();
    let told = "cim: cannot write par: it has changed since it was read, and is kept\n";
    fails(child.wait_with_output().unwrap(), told, 3);
    assert_eq!(fs::read(&par).unwrap(), TWO_DEVICES);
    assert_eq!(names(&at), ["par"]);
}

#[test]
fn what_stands_in_the_way_of_the_new_file_is_told() {
    let at = folder("in_the_way");
    put(&at, "in", TWO_DEVICES);
    put(&at, "kept", b"kept");
    symlink("kept", at.join(".out.cim-part")).unwrap();
    let told = "cim: cannot write out: ./.out.cim-part is in the way, and not a file\n";
    fails(run(&at, &["canon", "in", "out"]), told, 3);
    fs::remove_file(at.join(".out.cim-part")).unwrap();
    assert!(Command::new("mkfifo").arg(at.join(".out.cim-part")).status().unwrap().success());
    fails(run(&at, &["canon", "in", "out"]), told, 3);
    assert_eq!(fs::read(at.join("kept")).unwrap(), b"kept");
    assert_eq!(names(&at), [".out.cim-part", "in", "kept"]);
}

// ---- signals

/// Runs `cim canon in out` and sends it a signal in the middle of its writing; how it ended. What sends the signal is
/// started before, and waits for a line. Signals that the tests were told to ignore, as in the background, are not
/// ignored by the command: `env` sees to that.
fn signalled(at: &Path, name: &str) -> ExitStatus {
    let mut child = Command::new("env")
        .args(["--default-signal=HUP,INT,TERM", env!("CARGO_BIN_EXE_cim"), "canon", "in", "out"])
        .current_dir(at)
        .stdout(Stdio::null())
        .spawn()
        .unwrap();
    let kill = format!("read line; kill -s {name} {}", child.id());
    let mut sender = Command::new("sh")
        .args(["-c", &kill])
        .stdin(Stdio::piped())
        .stderr(Stdio::null())
        .spawn()
        .unwrap();
    let begun = || {
        fs::read_dir(at).unwrap().flatten().any(|entry| {
            let hidden = entry.file_name().to_string_lossy().starts_with('.');
            hidden && entry.metadata().is_ok_and(|found| found.len() > 0)
        })
    };
    while !begun() && child.try_wait().unwrap().is_none() {}
    sender.stdin.take().unwrap().write_all(b"now\n").unwrap();
    sender.wait().unwrap();
    child.wait().unwrap()
}

#[test]
fn a_signal_leaves_nothing_behind() {
    for (name, number) in [("TERM", 15), ("INT", 2), ("HUP", 1)] {
        let at = folder(&format!("signal_{name}"));
        large(&at, "in", 256);
        // One that comes too late finds a command that is done; then another is tried.
        let ended = (0..20).find_map(|_| {
            put(&at, "out", b"old");
            Some(signalled(&at, name)).filter(|status| !status.success())
        });
        let status = ended.expect("a signal that comes in time");
        assert_eq!(status.signal(), Some(number), "{status}");
        assert_eq!(fs::read(at.join("out")).unwrap(), b"old");
        assert_eq!(names(&at), ["in", "out"], "{name}");
    }
}

#[test]
fn what_a_kill_left_is_removed_by_a_later_run() {
    let at = folder("left");
    assert_eq!(cut_short(&at, "").status.code(), None);
    assert_eq!(names(&at).len(), 3, "the killed command leaves its new file");
    put(&at, "small", TWO_DEVICES);
    prints(run(&at, &["canon", "small", "other"]), "71 bytes written to other\n");
    assert_eq!(names(&at), ["in", "other", "out", "small"]);
    // What a command that runs has made is left to it.
    put(&at, "par", &TWO_DEVICES[..16]);
    let mut child = waiting(&at, "9");
    prints(run(&at, &["canon", "small", "other"]), "71 bytes written to other\n");
    child.stdin.take().unwrap().write_all(b"payload").unwrap();
    prints(child.wait_with_output().unwrap(), "59 bytes written to par\n");
    assert_eq!(names(&at), ["in", "other", "out", "par", "small"]);
}

// ---- closed descriptors, and names

#[test]
fn a_closed_standard_output_or_input_is_told() {
    let at = folder("closed_at_start");
    put(&at, "in", TWO_DEVICES);
    let shell = |words: &str| {
        Command::new("sh")
            .args(["-c", &format!("exec \"$0\" {words}"), env!("CARGO_BIN_EXE_cim")])
            .current_dir(&at)
            .output()
            .unwrap()
    };
    let told = "cim: cannot write to standard output: it is closed\n";
    for words in ["list in >&-", "canon in - >&-", "--help >&-"] {
        fails(shell(words), told, 3);
    }
    fails(shell("check - <&-"), "cim: cannot read standard input: it is closed\n", 3);
    prints(shell("canon in out 2>&-"), "71 bytes written to out\n");
}

#[test]
fn names_are_printed_without_their_controls() {
    let at = folder("names");
    put(&at, "in", TWO_DEVICES);
    prints(run(&at, &["canon", "in", "a\nb\x1b[2J"]), "71 bytes written to a\\nb\\u{1b}[2J\n");
    let told = "cim: cannot read \\u{7}: No such file or directory (os error 2)\n";
    fails(run(&at, &["check", "\x07"]), told, 3);
    fails(run(&at, &["\x1bc"]), "cim: there is no command `\\u{1b}c`; see `cim --help`\n", 2);
}

// ---- progress

#[test]
fn a_long_file_is_told_about_on_a_terminal_and_nowhere_else() {
    let at = folder("progress");
    large(&at, "in", 80);
    prints(run(&at, &["check", "in"]), "in: taken\n");
    let on_terminal = |name: &str| {
        Command::new("script")
            .args(["-qec", &format!("{} check {name}", env!("CARGO_BIN_EXE_cim")), "/dev/null"])
            .current_dir(&at)
            .stdin(Stdio::null())
            .output()
    };
    let Some(output) = on_terminal("in").ok().filter(|output| output.status.success()) else {
        not_run("a long file on a terminal, script(1) is not there");
        return;
    };
    let seen = String::from_utf8_lossy(&output.stdout).into_owned();
    assert!(seen.contains("\rreading in: 8.0 MiB of 80.0 MiB\u{1b}[K"), "{seen:?}");
    assert!(seen.ends_with("\r\u{1b}[Kin: taken\r\n"), "{seen:?}");
    put(&at, "short", TWO_DEVICES);
    let output = on_terminal("short").unwrap();
    assert_eq!(String::from_utf8_lossy(&output.stdout), "short: taken\r\n");
}
