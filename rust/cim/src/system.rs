//! What the system offers and the standard library does not: what to do when a signal comes, which descriptors were closed
//! at the start, and the further attributes of a file, its list of who else may use it among them. All of it is the C
//! library's, declared here; nothing else in the command is `unsafe`.

use std::ffi::{c_char, c_int, c_void, CStr, CString};
use std::fs::File;
use std::io;
use std::os::fd::AsRawFd;
use std::path::Path;
use std::ptr::null_mut;
use std::sync::atomic::{AtomicBool, AtomicI32, AtomicPtr, AtomicU8, Ordering::SeqCst};

extern "C" {
    /// Sets what a signal does, and answers what it did.
    fn signal(number: c_int, handler: usize) -> usize;
    fn raise(number: c_int) -> c_int;
    fn unlink(path: *const c_char) -> c_int;
    fn fcntl(descriptor: c_int, command: c_int, ...) -> c_int;
    /// The names of a file's attributes, each with a zero byte behind it; how many bytes they have.
    fn flistxattr(descriptor: c_int, names: *mut c_char, room: usize) -> isize;
    /// An attribute's value; how many bytes it has.
    fn fgetxattr(descriptor: c_int, name: *const c_char, value: *mut c_void, room: usize) -> isize;
    fn fsetxattr(
        descriptor: c_int,
        name: *const c_char,
        value: *const c_void,
        length: usize,
        flags: c_int,
    ) -> c_int;
}

// The numbers are the same on every Linux.
const DEFAULT: usize = 0;
const IGNORED: usize = 1;
const HANGUP: c_int = 1;
const INTERRUPT: c_int = 2;
const TERMINATE: c_int = 15;
const GET_FLAGS: c_int = 1;

// ---- signals

/// The path of the file that has to go when a signal ends the command; null where there is none.
static PART: AtomicPtr<c_char> = AtomicPtr::new(null_mut());

/// Whether signals wait, and which one does; 0 for none.
static HELD: AtomicBool = AtomicBool::new(false);
static WAITING: AtomicI32 = AtomicI32::new(0);

/// From here on a signal that ends the command first removes the file that was given to `remove_at_end`. A signal that
/// is ignored, as under `nohup`, stays so.
pub fn watch() {
    for number in [HANGUP, INTERRUPT, TERMINATE] {
        let handler = caught as extern "C" fn(c_int) as usize;
        // SAFETY: the handler calls nothing but what a handler may: atomics, unlink, signal and raise.
        unsafe {
            if signal(number, handler) == IGNORED {
                signal(number, IGNORED);
            }
        }
    }
}

extern "C" fn caught(number: c_int) {
    if HELD.load(SeqCst) {
        WAITING.store(number, SeqCst);
    } else {
        end(number);
    }
}

/// Removes what has to go, and lets the signal do what it does by itself.
fn end(number: c_int) {
    let path = PART.load(SeqCst);
    // SAFETY: the path is null or a C string that is never freed.
    unsafe {
        if !path.is_null() {
            unlink(path);
        }
        signal(number, DEFAULT);
        raise(number);
    }
}

/// Does something that no signal comes between; one that came takes effect afterwards.
pub fn undisturbed<T>(act: impl FnOnce() -> T) -> T {
    HELD.store(true, SeqCst);
    let done = act();
    HELD.store(false, SeqCst);
    let number = WAITING.swap(0, SeqCst);
    if number != 0 {
        end(number);
    }
    done
}

/// The file that a signal removes from now on; none for none. A path with a zero byte names no file.
pub fn remove_at_end(path: Option<&Path>) {
    use std::os::unix::ffi::OsStrExt;
    let path = path.and_then(|path| CString::new(path.as_os_str().as_bytes()).ok());
    // The string is not freed: a handler may be reading it. A command has one or two of them.
    PART.store(path.map_or(null_mut(), CString::into_raw), SeqCst);
}

// ---- descriptors

/// A bit for each of standard input, output and error that was closed when the command was started.
static CLOSED: AtomicU8 = AtomicU8::new(0);

/// Runs before `main` and before the standard library, which puts `/dev/null` in the place of what is closed.
#[used]
#[link_section = ".init_array"]
static AT_START: extern "C" fn() = look;

extern "C" fn look() {
    for descriptor in 0..3 {
        // SAFETY: asks for the flags of a descriptor, and changes nothing.
        if unsafe { fcntl(descriptor, GET_FLAGS) } == -1 {
            CLOSED.fetch_or(1 << descriptor, SeqCst);
        }
    }
}

/// Whether standard input was closed at the start.
pub fn input_is_closed() -> bool {
    CLOSED.load(SeqCst) & 1 != 0
}

/// Whether standard output was closed at the start.
pub fn output_is_closed() -> bool {
    CLOSED.load(SeqCst) & 2 != 0
}

// ---- attributes

/// The most bytes that the names of a file's attributes have, and the value of one.
const MOST_ATTRIBUTE: usize = 65_536;

/// The attribute that lists who else may use a file.
const LIST: &[u8] = b"system.posix_acl_access";

/// Those attributes of a file that its owner gives it: the list of who else may use it, and what programs keep there. A file
/// system that knows none has none.
pub fn attributes(file: &File) -> io::Result<Vec<(CString, Vec<u8>)>> {
    let mut names = vec![0u8; MOST_ATTRIBUTE];
    // SAFETY: the pointer and the length are of one live slice, within which the system writes during the call alone.
    let length = unsafe { flistxattr(file.as_raw_fd(), names.as_mut_ptr().cast(), names.len()) };
    let Ok(length) = usize::try_from(length) else {
        return match io::Error::last_os_error() {
            error if error.kind() == io::ErrorKind::Unsupported => Ok(Vec::new()),
            error => Err(error),
        };
    };
    let mut found = Vec::new();
    for name in names[..length].split_inclusive(|byte| *byte == 0) {
        let Ok(name) = CStr::from_bytes_with_nul(name) else { continue };
        if name.to_bytes() == LIST || name.to_bytes().starts_with(b"user.") {
            found.push((name.to_owned(), attribute(file, name)?));
        }
    }
    Ok(found)
}

fn attribute(file: &File, name: &CStr) -> io::Result<Vec<u8>> {
    let mut value = vec![0u8; MOST_ATTRIBUTE];
    // SAFETY: as above; the name is a C string.
    let length = unsafe {
        fgetxattr(file.as_raw_fd(), name.as_ptr(), value.as_mut_ptr().cast(), value.len())
    };
    value.truncate(usize::try_from(length).map_err(|_| io::Error::last_os_error())?);
    Ok(value)
}

pub fn set_attribute(file: &File, name: &CStr, value: &[u8]) -> io::Result<()> {
    // SAFETY: the pointer and the length are of one live slice, which the system reads during the call alone; the name is a
    // C string.
    let done = unsafe {
        fsetxattr(file.as_raw_fd(), name.as_ptr(), value.as_ptr().cast(), value.len(), 0)
    };
    if done == 0 {
        Ok(())
    } else {
        Err(io::Error::last_os_error())
    }
}
