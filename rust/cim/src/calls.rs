//! The system calls that reading and writing files take, one function for each. In tests every one of them can be made to
//! fail, or to be the last one made, as if the command had been killed there.

use crate::system;
use std::ffi::{CStr, CString};
use std::fs::{self, File, Metadata, OpenOptions, ReadDir, TryLockError};
use std::io::{self, Read, Write};
use std::os::unix::fs::{fchown, OpenOptionsExt, PermissionsExt};
use std::path::{Path, PathBuf};

/// Asked before each call.
#[cfg(not(test))]
fn step() -> io::Result<()> {
    Ok(())
}

#[cfg(test)]
use plan::step;

pub fn open(path: &Path) -> io::Result<File> {
    step()?;
    File::open(path)
}

/// Opens a file that is there, as one who would write to it.
pub fn open_to_write(path: &Path) -> io::Result<File> {
    step()?;
    OpenOptions::new().write(true).open(path)
}

/// Makes a file that was not there.
pub fn create(path: &Path, mode: u32) -> io::Result<File> {
    step()?;
    OpenOptions::new().write(true).create_new(true).mode(mode).open(path)
}

pub fn status(path: &Path) -> io::Result<Metadata> {
    step()?;
    fs::symlink_metadata(path)
}

pub fn status_of(file: &File) -> io::Result<Metadata> {
    step()?;
    file.metadata()
}

pub fn link_text(path: &Path) -> io::Result<PathBuf> {
    step()?;
    fs::read_link(path)
}

pub fn folder(path: &Path) -> io::Result<ReadDir> {
    step()?;
    fs::read_dir(path)
}

/// Who has a file locked.
#[derive(Clone, Copy, Debug, PartialEq)]
pub enum Lock {
    /// The caller, for as long as the file is open.
    Mine,
    Another,
    /// The file system has no locks.
    Unknown,
}

/// The number of an error that some file systems answer where they have no locks.
const NO_LOCKS: i32 = 37;

pub fn lock(file: &File) -> io::Result<Lock> {
    step()?;
    match file.try_lock() {
        Ok(()) => Ok(Lock::Mine),
        Err(TryLockError::WouldBlock) => Ok(Lock::Another),
        Err(TryLockError::Error(error))
            if error.kind() == io::ErrorKind::Unsupported
                || error.raw_os_error() == Some(NO_LOCKS) =>
        {
            Ok(Lock::Unknown)
        }
        Err(TryLockError::Error(error)) => Err(error),
    }
}

/// Reads up to `most` bytes more.
pub fn read(input: &mut impl Read, bytes: &mut Vec<u8>, most: u64) -> io::Result<usize> {
    step()?;
    input.take(most).read_to_end(bytes)
}

pub fn write(mut file: &File, bytes: &[u8]) -> io::Result<()> {
    // In tests: what fails may have begun.
    #[cfg(test)]
    let begun = |error| {
        plan::half(file, bytes);
        error
    };
    #[cfg(not(test))]
    let begun = |error| error;
    step().map_err(begun)?;
    file.write_all(bytes)
}

pub fn set_owner(file: &File, owner: u32, group: u32) -> io::Result<()> {
    step()?;
    fchown(file, Some(owner), Some(group))
}

pub fn set_mode(file: &File, mode: u32) -> io::Result<()> {
    step()?;
    file.set_permissions(fs::Permissions::from_mode(mode))
}

/// The attributes of a file that go with it when it is replaced.
pub fn attributes(file: &File) -> io::Result<Vec<(CString, Vec<u8>)>> {
    step()?;
    system::attributes(file)
}

pub fn set_attribute(file: &File, name: &CStr, value: &[u8]) -> io::Result<()> {
    step()?;
    system::set_attribute(file, name, value)
}

/// Waits until a file or a folder is on the disk.
pub fn sync(file: &File) -> io::Result<()> {
    step()?;
    file.sync_all()
}

pub fn rename(from: &Path, to: &Path) -> io::Result<()> {
    step()?;
    fs::rename(from, to)
}

/// Gives a file a second name, which nothing has yet.
pub fn second_name(path: &Path, name: &Path) -> io::Result<()> {
    step()?;
    fs::hard_link(path, name)
}

pub fn remove(path: &Path) -> io::Result<()> {
    step()?;
    fs::remove_file(path)
}

/// Which call of this thread fails, or is the last one made.
#[cfg(test)]
pub mod plan {
    use std::cell::Cell;
    use std::fs::File;
    use std::io::{self, Write};

    #[derive(Clone, Copy, Debug, PartialEq)]
    pub enum Plan {
        Nothing,
        /// The call of this number fails, from 0.
        Fail(usize),
        /// The call of this number and all behind it are not made.
        Stop(usize),
    }

    thread_local! {
        static PLAN: Cell<Plan> = const { Cell::new(Plan::Nothing) };
        static MADE: Cell<usize> = const { Cell::new(0) };
    }

    /// Does something by a plan; what it gave, and whether the plan's call was reached.
    pub fn by<T>(plan: Plan, act: impl FnOnce() -> T) -> (T, bool) {
        PLAN.set(plan);
        MADE.set(0);
        let done = act();
        PLAN.set(Plan::Nothing);
        let reached = match plan {
            Plan::Nothing => false,
            Plan::Fail(at) | Plan::Stop(at) => MADE.get() > at,
        };
        (done, reached)
    }

    pub fn step() -> io::Result<()> {
        let number = MADE.replace(MADE.get() + 1);
        match PLAN.get() {
            Plan::Fail(at) if number == at => Err(io::Error::other("planted")),
            Plan::Stop(at) if number >= at => Err(io::Error::other("stopped")),
            _ => Ok(()),
        }
    }

    /// The first half of a write that is the call of the plan.
    pub fn half(mut file: &File, bytes: &[u8]) {
        let last = MADE.get() - 1;
        if PLAN.get() == Plan::Fail(last) || PLAN.get() == Plan::Stop(last) {
            let _ = file.write_all(&bytes[..bytes.len() / 2]);
        }
    }
}
