//! How wide the terminal is.

use std::ffi::{c_int, c_ulong};
use std::io::stderr;
use std::os::fd::AsRawFd;

/// A terminal that does not tell its width is taken to have so many columns.
const USUAL: usize = 80;

/// What the kernel tells of a terminal: its rows and columns, and its size in dots.
#[repr(C)]
#[derive(Default)]
struct Size {
    rows: u16,
    columns: u16,
    across: u16,
    down: u16,
}

/// The request for that, on Linux.
const GET_SIZE: c_ulong = 0x5413;

extern "C" {
    fn ioctl(file: c_int, request: c_ulong, ...) -> c_int;
}

/// The columns of the terminal that the errors go to. They are asked for each time: a window may be
/// made narrower meanwhile.
pub fn columns() -> usize {
    let mut size = Size::default();
    // Safety: the request writes one such structure, and it is there until the call is over.
    let done = unsafe { ioctl(stderr().as_raw_fd(), GET_SIZE, &mut size) };
    match (done, size.columns) {
        (0, 1..) => size.columns.into(),
        _ => USUAL,
    }
}
