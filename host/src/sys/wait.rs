//! Waiting for a file (`poll`): a read would wait for ever, and not look at the signals. Opening a pipe would, too
//! (`open` with `O_NONBLOCK` does not).

use std::ffi::{c_int, c_short, c_ulong};
use std::fs::{self, File};
use std::io;
use std::os::fd::{AsRawFd, RawFd};
use std::os::unix::fs::OpenOptionsExt;
use std::path::Path;

const POLLIN: c_short = 1;

#[repr(C)]
struct PollFd {
    fd: RawFd,
    events: c_short,
    revents: c_short,
}

extern "C" {
    fn poll(fds: *mut PollFd, count: c_ulong, milliseconds: c_int) -> c_int;
}

/// `O_NONBLOCK`.
const AT_ONCE: c_int = 0o4000;

/// Opens a file to be read. A pipe is opened at once, whether or not somebody writes into it yet: it is waited for by
/// [`is_ready`].
pub fn open_to_read(path: &Path) -> io::Result<File> {
    let is_file = fs::metadata(path)?.is_file();
    File::options().read(true).custom_flags(if is_file { 0 } else { AT_ONCE }).open(path)
}

/// Whether something can be read, or the end, or a fault, within so many milliseconds.
pub fn is_ready(from: &File, milliseconds: i32) -> bool {
    let mut one = PollFd { fd: from.as_raw_fd(), events: POLLIN, revents: 0 };
    // SAFETY: one is lent for the length of the call
    unsafe { poll(&mut one, 1, milliseconds) > 0 }
}
