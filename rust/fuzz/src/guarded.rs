//! Memory before a page that nobody may touch: whoever reads behind the end of an input is stopped by the system.

use std::ffi::{c_int, c_void};
use std::ptr::null_mut;

extern "C" {
    fn mmap(
        place: *mut c_void,
        length: usize,
        rights: c_int,
        flags: c_int,
        file: c_int,
        offset: i64,
    ) -> *mut c_void;
    fn mprotect(place: *mut c_void, length: usize, rights: c_int) -> c_int;
    fn munmap(place: *mut c_void, length: usize) -> c_int;
}

// The numbers of Linux.
const NONE: c_int = 0;
const READ_AND_WRITE: c_int = 3;
const PRIVATE_AND_OF_NO_FILE: c_int = 0x22;

/// The largest page of any machine that this runs on.
const PAGE: usize = 65_536;

/// Room for inputs up to a length.
pub struct Guarded {
    start: *mut u8,
    room: usize,
}

impl Guarded {
    pub fn new(most: usize) -> Guarded {
        let room = most.next_multiple_of(PAGE);
        // SAFETY: asks for new memory that nothing else names; its last page is then closed.
        let start = unsafe {
            let start =
                mmap(null_mut(), room + PAGE, READ_AND_WRITE, PRIVATE_AND_OF_NO_FILE, -1, 0);
            assert!(start as isize != -1, "there is memory");
            assert_eq!(mprotect(start.byte_add(room), PAGE, NONE), 0, "a page can be closed");
            start
        };
        Guarded { start: start.cast(), room }
    }

    /// The input where its end is the last byte that may be touched.
    pub fn hold(&mut self, input: &[u8]) -> &[u8] {
        assert!(input.len() <= self.room, "an input of {} bytes", input.len());
        // SAFETY: the place and the bytes behind it lie in this memory, which nobody else has a reference to.
        unsafe {
            let place = self.start.add(self.room - input.len());
            place.copy_from_nonoverlapping(input.as_ptr(), input.len());
            std::slice::from_raw_parts(place, input.len())
        }
    }
}

impl Drop for Guarded {
    fn drop(&mut self) {
        // SAFETY: the memory is this one's own.
        unsafe { munmap(self.start.cast(), self.room + PAGE) };
    }
}

#[cfg(test)]
mod tests {
    use super::*;
    use std::os::unix::process::ExitStatusExt;
    use std::process::Command;

    const AT_IT: &str = "FUZZ_READS_BEHIND_THE_END";

    /// Runs itself once more, to be stopped there.
    #[test]
    fn who_reads_behind_the_end_is_stopped() {
        let mut guarded = Guarded::new(100);
        let input = guarded.hold(b"input");
        assert_eq!(input, b"input");
        if std::env::var_os(AT_IT).is_some() {
            // SAFETY: none; the system has to stop it.
            unsafe { input.as_ptr().add(input.len()).read_volatile() };
        } else {
            let status = Command::new(std::env::current_exe().unwrap())
                .arg("who_reads_behind_the_end_is_stopped")
                .env(AT_IT, "1")
                .output()
                .unwrap()
                .status;
            assert_eq!(status.signal(), Some(11));
        }
    }
}
