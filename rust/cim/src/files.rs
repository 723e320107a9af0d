//! Reading a whole input, and writing an output so that no half of it is ever seen and no other's work is lost.
//!
//! An output is claimed before the input is read: a new file beside the target, locked for as long as the command runs, so
//! that two commands that change one file come one after the other. The bytes go there, and once they are on the disk it
//! takes the target's name.

use crate::calls::{self, Lock};
use crate::command::KEEP;
use crate::failure::Failure;
use crate::json::Object;
use crate::lines::Lines;
use crate::progress::Progress;
use crate::shown::name_of;
use crate::system;
use crate::words::Words;
use std::ffi::{OsStr, OsString};
use std::fmt::Display;
use std::fs::{File, Metadata};
use std::io::{self, IsTerminal, Read, Write};
use std::os::unix::fs::MetadataExt;
use std::path::{Path, PathBuf};
use std::time::{Duration, Instant};

/// Whether a word means standard input or output.
pub fn is_dash(word: &OsStr) -> bool {
    word == "-"
}

// ---- printing

/// Prints a text to standard output.
pub fn print(text: &str) -> Result<(), Failure> {
    print_bytes(text.as_bytes())
}

/// Says a line on standard error. Where nobody listens, the status alone has to tell.
pub fn complain(line: impl Display) {
    let _ = writeln!(io::stderr(), "{line}");
}

fn print_bytes(bytes: &[u8]) -> Result<(), Failure> {
    if system::output_is_closed() {
        return Err(Failure::Io("cannot write to standard output: it is closed".into()));
    }
    let mut out = io::stdout().lock();
    out.write_all(bytes)
        .and_then(|()| out.flush())
        .map_err(|error| Failure::io("cannot write to standard output", error))
}

// ---- reading

/// Reads a file, or standard input for `-`, up to one byte more than `most`: enough for the library to say that it is
/// too long, whatever its length.
pub fn read(name: &OsStr, most: u64) -> Result<Vec<u8>, Failure> {
    let mut bytes = Vec::new();
    if is_dash(name) {
        if system::input_is_closed() {
            return Err(Failure::Io("cannot read standard input: it is closed".into()));
        }
        let progress = Progress::new("reading standard input".into(), None);
        read_all(io::stdin().lock(), &mut bytes, most + 1, progress)
            .map_err(|error| Failure::io("cannot read standard input", error))?;
        return Ok(bytes);
    }
    calls::open(Path::new(name))
        .and_then(|file| {
            let expected = calls::status_of(&file)?.len().min(most + 1);
            bytes.try_reserve_exact(expected as usize + 1)?;
            let progress = Progress::new(format!("reading {}", name_of(name)), Some(expected));
            read_all(file, &mut bytes, most + 1, progress)
        })
        .map_err(|error| Failure::io(format!("cannot read {}", name_of(name)), error))?;
    Ok(bytes)
}

/// Reads up to `most` bytes.
fn read_all(
    mut input: impl Read,
    bytes: &mut Vec<u8>,
    most: u64,
    mut progress: Progress,
) -> io::Result<()> {
    loop {
        // Room is asked for before it is used: the standard library's own reading aborts where there is none.
        if bytes.len() == bytes.capacity() {
            bytes.try_reserve(STEP)?;
        }
        let room = (bytes.capacity() - bytes.len()).min(STEP) as u64;
        let left = most - bytes.len() as u64;
        if calls::read(&mut input, bytes, left.min(room))? == 0 {
            return Ok(());
        }
        progress.at(bytes.len() as u64);
    }
}

// ---- writing

/// How long to wait for another command that writes to the same target.
const PATIENCE: Duration = Duration::from_secs(60);

/// The end of the name under which a new file waits to become its target.
const PART: &str = ".cim-part";

/// An output that is this command's alone until it is written or given up.
pub struct Target<'a> {
    words: &'a Words,
    name: &'a OsStr,
    /// None for standard output.
    claim: Option<Claim>,
}

/// What is claimed: the path behind all links, what stood there, and the new file beside it.
struct Claim {
    path: PathBuf,
    old: Option<Metadata>,
    part: Part,
    keep: bool,
}

/// Claims an output by its name, `-` for standard output. With `--no-clobber` a file that is there is not replaced.
pub fn claim<'a>(words: &'a Words, name: &'a OsStr) -> Result<Target<'a>, Failure> {
    let claim = if is_dash(name) {
        None
    } else {
        let told = |error| Failure::io(format!("cannot write {}", name_of(name)), error);
        Some(Claim::make(Path::new(name), words.has(&KEEP)).map_err(told)?)
    };
    Ok(Target { words, name, claim })
}

impl Target<'_> {
    /// Writes the bytes in the target's place, all or nothing, and says so.
    pub fn put(self, bytes: &[u8]) -> Result<(), Failure> {
        let Some(claim) = self.claim else { return print_bytes(bytes) };
        let shown = name_of(self.name);
        claim.put(bytes).map_err(|error| Failure::io(format!("cannot write {shown}"), error))?;
        let written = bytes.len() as u64;
        let object = Object::new("written").text("file", &shown).number("bytes", written);
        let mut lines = Lines::new(self.words);
        let bytes = if written == 1 { "byte" } else { "bytes" };
        lines.line(object, format_args!("{written} {bytes} written to {shown}"));
        lines.print()
    }
}

impl Claim {
    fn make(name: &Path, keep: bool) -> io::Result<Claim> {
        let path = behind_links(name)?;
        let old = replaceable(&path, keep)?;
        // Nobody reads a secret in a new file before it has the old one's permissions.
        let part = Part::claim(&path, if old.is_some() { 0o600 } else { 0o666 })?;
        // Another command may have replaced the target while this one waited.
        let old = replaceable(&path, keep)?;
        Ok(Claim { path, old, part, keep })
    }

    fn put(self, bytes: &[u8]) -> io::Result<()> {
        let shown = name_of(self.path.as_os_str());
        let progress = Progress::new(format!("writing {shown}"), Some(bytes.len() as u64));
        let old = self.old.as_ref().map(|old| (self.path.as_path(), old));
        self.part.fill(bytes, old, progress)?;
        let now = replaceable(&self.path, self.keep)?;
        if now.as_ref().map(stamp) != self.old.as_ref().map(stamp) {
            return Err(io::Error::other("it has changed since it was read, and is kept"));
        }
        self.part.take_name(&self.path, self.keep)?;
        // The name itself is on the disk once its folder is. Not every file system can be asked for that; the file is
        // whole either way.
        let _ = calls::open(folder_of(&self.path)).and_then(|folder| calls::sync(&folder));
        Ok(())
    }
}

/// Follows links to what they name, which need not be there: the links stay.
fn behind_links(name: &Path) -> io::Result<PathBuf> {
    let mut path = name.to_path_buf();
    for _ in 0..40 {
        match calls::status(&path) {
            Ok(found) if found.is_symlink() => {
                path = folder_of(&path).join(calls::link_text(&path)?);
            }
            Ok(_) => return Ok(path),
            Err(error) if error.kind() == io::ErrorKind::NotFound => return Ok(path),
            Err(error) => return Err(error),
        }
    }
    Err(io::Error::other("its links lead to no end"))
}

/// What stands at a path, if it may be replaced: a file that the caller may write, or nothing.
fn replaceable(path: &Path, keep: bool) -> io::Result<Option<Metadata>> {
    let found = match calls::status(path) {
        Ok(found) => found,
        Err(error) if error.kind() == io::ErrorKind::NotFound => return Ok(None),
        Err(error) => return Err(error),
    };
    if !found.is_file() {
        return Err(io::Error::other("it is there, and not a file (`-` is standard output)"));
    }
    if keep {
        return Err(io::Error::other("it is there already"));
    }
    if found.permissions().readonly() {
        return Err(io::Error::other("it is there, and read-only"));
    }
    // To rename over a file takes a right to its folder alone; here it takes one to the file too.
    calls::open_to_write(path)?;
    Ok(Some(found))
}

/// What tells a file from what it is after a change: where it is on the disk, its length, and when it was changed.
fn stamp(file: &Metadata) -> [i64; 7] {
    let [device, number, length] = [file.dev(), file.ino(), file.len()].map(|part| part as i64);
    [device, number, length, file.mtime(), file.mtime_nsec(), file.ctime(), file.ctime_nsec()]
}

/// The folder that a file stands in.
fn folder_of(target: &Path) -> &Path {
    match target.parent() {
        Some(folder) if !folder.as_os_str().is_empty() => folder,
        _ => Path::new("."),
    }
}

/// A new file on its way to become the target, and the lock on it at once: whoever has the file of this name locked is
/// the one who writes the target. Dropped before it has the target's name, it is removed.
struct Part {
    path: PathBuf,
    file: File,
    taken: bool,
}

impl Part {
    /// Makes the file beside the target, waiting for another command that has it. One that nobody has locked was left by
    /// a command that was killed, and is removed, here and wherever it stands in the folder.
    fn claim(target: &Path, mode: u32) -> io::Result<Part> {
        let name = target.file_name().ok_or_else(|| io::Error::other("it names no file"))?;
        let path = folder_of(target).join(part_name(name));
        system::watch();
        sweep(folder_of(target));
        let start = Instant::now();
        let mut told = !io::stderr().is_terminal();
        loop {
            match system::undisturbed(|| Part::create(&path, mode)) {
                Ok(Some(part)) => return Ok(part),
                Ok(None) => (),
                Err(error) if error.kind() == io::ErrorKind::AlreadyExists => (),
                Err(error) => return Err(error),
            }
            if remove_left(&path)? {
                continue;
            }
            if start.elapsed() > PATIENCE {
                let left = name_of(path.as_os_str());
                let sentence =
                    format!("another command is writing it, or was killed and left {left}");
                return Err(io::Error::other(sentence));
            }
            if !told && start.elapsed() > Duration::from_secs(1) {
                told = true;
                complain(format_args!("cim: waits for another command to write {}", name_of(name)));
            }
            std::thread::sleep(Duration::from_millis(5));
        }
    }

    /// Makes and locks the file; none where another command has taken it for one that was left.
    fn create(path: &Path, mode: u32) -> io::Result<Option<Part>> {
        let file = calls::create(path, mode)?;
        system::remove_at_end(Some(path));
        let part = Part { path: path.to_path_buf(), file, taken: false };
        // Where there are no locks, that the file is new has to do.
        if calls::lock(&part.file)? != Lock::Another && is_at(&part.file, path)? {
            return Ok(Some(part));
        }
        part.forget();
        Ok(None)
    }

    /// Writes the bytes, makes the file like the one to be replaced, and waits until all of it is on the disk.
    fn fill(
        &self,
        bytes: &[u8],
        old: Option<(&Path, &Metadata)>,
        mut progress: Progress,
    ) -> io::Result<()> {
        for (number, part) in (1..).zip(bytes.chunks(STEP)) {
            calls::write(&self.file, part)?;
            progress.at(bytes.len().min(number * STEP) as u64);
        }
        if let Some((path, old)) = old {
            self.become_alike(path, old)?;
        }
        calls::sync(&self.file)
    }

    /// Takes over the owner, the group, the permissions and the attributes of the file to be replaced.
    fn become_alike(&self, path: &Path, old: &Metadata) -> io::Result<()> {
        let new = calls::status_of(&self.file)?;
        let (owner, group) = (old.uid(), old.gid());
        if (new.uid(), new.gid()) != (owner, group) {
            let kept = format!("its owner and group, {owner}:{group}, cannot be kept");
            calls::set_owner(&self.file, owner, group).map_err(told(&kept))?;
        }
        calls::set_mode(&self.file, old.mode() & 0o7777)?;
        for (name, value) in calls::open_to_write(path).and_then(|old| calls::attributes(&old))? {
            let kept = format!("its attribute {} cannot be kept", name.to_string_lossy());
            calls::set_attribute(&self.file, &name, &value).map_err(told(&kept))?;
        }
        Ok(())
    }

    /// Gives the file the target's name; with `keep` only if nothing has that name.
    fn take_name(mut self, target: &Path, keep: bool) -> io::Result<()> {
        system::undisturbed(|| {
            if keep {
                match calls::second_name(&self.path, target) {
                    Ok(()) => return Ok(()), // and the first name goes
                    // A file system without second names; that nothing has the name was asked just before.
                    Err(error) if error.kind() == io::ErrorKind::PermissionDenied => (),
                    Err(error) => return Err(error),
                }
            }
            calls::rename(&self.path, target)?;
            self.taken = true;
            system::remove_at_end(None);
            Ok(())
        })
    }

    /// Lets go of a name that is another's.
    fn forget(mut self) {
        self.taken = true;
        system::remove_at_end(None);
    }
}

impl Drop for Part {
    fn drop(&mut self) {
        if !self.taken {
            system::undisturbed(|| {
                let _ = calls::remove(&self.path);
                system::remove_at_end(None);
            });
        }
    }
}

/// An error, told behind what it keeps from being done.
fn told(what: &str) -> impl Fn(io::Error) -> io::Error + '_ {
    move |error| io::Error::new(error.kind(), format!("{what}: {error}"))
}

/// Bytes that are read or written at once.
const STEP: usize = 8 << 20;

/// The name of the new file for a target of a name; of a very long one its beginning.
fn part_name(target: &OsStr) -> OsString {
    use std::os::unix::ffi::OsStrExt;
    let bytes = target.as_bytes();
    let mut name = OsString::from(".");
    name.push(OsStr::from_bytes(&bytes[..bytes.len().min(240)]));
    name.push(PART);
    name
}

/// Whether an open file is the one at a path.
fn is_at(file: &File, path: &Path) -> io::Result<bool> {
    let open = calls::status_of(file)?;
    match calls::status(path) {
        Ok(found) => Ok((open.dev(), open.ino()) == (found.dev(), found.ino())),
        Err(error) if error.kind() == io::ErrorKind::NotFound => Ok(false),
        Err(error) => Err(error),
    }
}

/// Removes a new file that nobody has locked: its command was killed. False where somebody has it, or nobody knows.
fn remove_left(path: &Path) -> io::Result<bool> {
    match calls::status(path) {
        Ok(found) if found.is_file() => (),
        Ok(_) => {
            let name = name_of(path.as_os_str());
            return Err(io::Error::other(format!("{name} is in the way, and not a file")));
        }
        Err(error) if error.kind() == io::ErrorKind::NotFound => return Ok(true),
        Err(error) => return Err(error),
    }
    let file = match calls::open(path) {
        Ok(file) => file,
        Err(error) if error.kind() == io::ErrorKind::NotFound => return Ok(true),
        Err(error) => return Err(error),
    };
    if calls::lock(&file)? != Lock::Mine {
        return Ok(false);
    }
    if is_at(&file, path)? {
        calls::remove(path)?;
    }
    Ok(true)
}

/// Removes all new files in a folder that were left there. What cannot be removed stays: it is in nobody's way.
fn sweep(folder: &Path) {
    let Ok(entries) = calls::folder(folder) else { return };
    for entry in entries.flatten() {
        let name = entry.file_name();
        let bytes = name.as_encoded_bytes();
        let is_file = entry.file_type().is_ok_and(|kind| kind.is_file());
        if is_file && bytes.starts_with(b".") && bytes.ends_with(PART.as_bytes()) {
            let _ = remove_left(&entry.path());
        }
    }
}

/// Whichever system call of a write fails, or is the last one made, the target is the old file or the new one, whole.
#[cfg(test)]
mod tests {
    use super::*;
    use crate::calls::plan::{by, Plan};
    use std::fs;
    use std::os::unix::fs::{chown, PermissionsExt};

    const OLD: &[u8] = b"the old file";
    const NEW: &[u8] = b"the new file, which is longer";

    fn folder(test: &str) -> PathBuf {
        let folder = std::env::temp_dir().join(format!("cim-files-{test}-{}", std::process::id()));
        let _ = fs::remove_dir_all(&folder);
        fs::create_dir(&folder).unwrap();
        folder
    }

    /// Writes the new bytes by a plan: whether that was said to be done, and whether the plan's call was reached.
    fn write(target: &Path, keep: bool, plan: Plan) -> (bool, bool) {
        by(plan, || Claim::make(target, keep).and_then(|claim| claim.put(NEW)).is_ok())
    }

    /// What else stands in the folder.
    fn left(folder: &Path) -> usize {
        fs::read_dir(folder).unwrap().count() - usize::from(folder.join("target").exists())
    }

    /// Goes through the calls of a write, each of them failing or the last one in turn, until all have been. `before` lays
    /// the folder; the target was `old` then.
    fn each(test: &str, keep: bool, old: Option<&[u8]>, before: impl Fn(&Path)) {
        let folder = folder(test);
        let target = folder.join("target");
        for plan in [Plan::Fail, Plan::Stop] {
            let mut reached_all = false;
            for at in 0..200 {
                let _ = fs::remove_file(&target);
                before(&target);
                let mode = fs::metadata(&target).map(|found| found.mode()).ok();
                let (done, reached) = write(&target, keep, plan(at));
                let now = fs::read(&target).ok();
                let is_new = now.as_deref() == Some(NEW);
                assert!(is_new || now.as_deref() == old, "{:?}: {now:?}", plan(at));
                assert!(is_new || !done, "{:?}: said to be done", plan(at));
                if let (Some(mode), Ok(found)) = (mode, fs::metadata(&target)) {
                    assert_eq!(found.mode(), mode, "{:?}", plan(at));
                }
                // A failed call may be the one that removes; a stop removes nothing. A later run does.
                assert!(left(&folder) <= 1);
                let _ = fs::remove_file(&target);
                assert_eq!(write(&target, keep, Plan::Nothing), (true, false));
                assert_eq!(left(&folder), 0, "{:?}: something is left", plan(at));
                if !reached {
                    assert!(done && is_new && at > 10, "{:?}", plan(at));
                    reached_all = true;
                    break;
                }
            }
            assert!(reached_all, "there are more calls");
        }
        fs::remove_dir_all(&folder).unwrap();
    }

    #[test]
    fn each_call_of_a_new_file() {
        each("new", false, None, |_| ());
        each("new_kept", true, None, |_| ());
    }

    #[test]
    fn each_call_of_a_replacement() {
        each("replaced", false, Some(OLD), |target| {
            fs::write(target, OLD).unwrap();
            fs::set_permissions(target, fs::Permissions::from_mode(0o640)).unwrap();
        });
    }

    #[test]
    fn each_call_of_a_replacement_of_anothers_file() {
        if fs::metadata("/proc/self").unwrap().uid() != 0 {
            complain("not run: the owner of a replaced file, it takes root to change owners");
            return;
        }
        each("owner", false, Some(OLD), |target| {
            fs::write(target, OLD).unwrap();
            chown(target, Some(1000), Some(1001)).unwrap();
        });
    }

    #[test]
    fn who_else_may_use_a_file_stays() {
        let folder = folder("attributes");
        let target = folder.join("target");
        fs::write(&target, OLD).unwrap();
        let file = File::open(&target).unwrap();
        // Version 2; the owner may read and write, user 1001 may read, the group nothing, at most that, others nothing.
        let entries: [(u16, u16, u32); 5] = [
            (1, 6, u32::MAX),
            (2, 4, 1001),
            (4, 0, u32::MAX),
            (16, 4, u32::MAX),
            (32, 0, u32::MAX),
        ];
        let mut list = 2u32.to_le_bytes().to_vec();
        for (who, may, id) in entries {
            list.extend(who.to_le_bytes());
            list.extend(may.to_le_bytes());
            list.extend(id.to_le_bytes());
        }
        for (name, value) in [(c"system.posix_acl_access", &list[..]), (c"user.cim", b"kept")] {
            if let Err(error) = system::set_attribute(&file, name, value) {
                complain(format_args!("not run: {name:?} cannot be set here: {error}"));
            }
        }
        let before = system::attributes(&file).unwrap();
        let mode = file.metadata().unwrap().mode();
        assert_eq!(write(&target, false, Plan::Nothing), (true, false));
        let file = File::open(&target).unwrap();
        assert_eq!(fs::read(&target).unwrap(), NEW);
        assert_eq!(system::attributes(&file).unwrap(), before);
        assert_eq!(file.metadata().unwrap().mode(), mode);
        fs::remove_dir_all(&folder).unwrap();
    }

    #[test]
    fn each_call_behind_a_killed_command() {
        each("left", false, Some(OLD), |target| {
            fs::write(target, OLD).unwrap();
            fs::write(target.with_file_name(".target.cim-part"), b"half of").unwrap();
        });
    }

    /// Only the calls behind the target's new name may fail without a word.
    #[test]
    fn what_fails_before_the_name_is_taken_is_told() {
        let folder = folder("told");
        let target = folder.join("target");
        let mut quiet = Vec::new();
        for at in 0.. {
            fs::write(&target, OLD).unwrap();
            let (done, reached) = write(&target, false, Plan::Fail(at));
            if !reached {
                break;
            }
            if done {
                quiet.push(at);
            }
        }
        // To look for what was left in the folder, and at the end to open it and to wait for it.
        assert_eq!(quiet.len(), 3, "{quiet:?}");
        fs::remove_dir_all(&folder).unwrap();
    }

    #[test]
    fn a_name_of_any_length_has_a_new_file() {
        assert_eq!(part_name(OsStr::new("a")), ".a.cim-part");
        assert_eq!(part_name(OsStr::new(&"x".repeat(255))).len(), 250);
    }
}
