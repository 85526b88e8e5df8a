//! The terminal on standard error, if there is one.

use std::ffi::{c_int, c_ulong};
use std::io::{self, IsTerminal};
use std::os::fd::AsRawFd;

/// Whether standard error is a terminal (`isatty`).
pub fn is_there() -> bool {
    io::stderr().is_terminal()
}

const TIOCGWINSZ: c_ulong = 0x5413;

/// Rows, columns, and the width and height in dots.
#[repr(C)]
#[derive(Default)]
struct Size([u16; 4]);

extern "C" {
    fn ioctl(fd: c_int, request: c_ulong, ...) -> c_int;
}

/// How many letters a line has (`ioctl`); 80 if the terminal does not say.
pub fn width() -> usize {
    let mut size = Size::default();
    // SAFETY: a size is lent for the length of the call, which writes four numbers of 16 bits
    match unsafe { ioctl(io::stderr().as_raw_fd(), TIOCGWINSZ, &mut size) } {
        0 if size.0[1] > 0 => size.0[1].into(),
        _ => 80,
    }
}
