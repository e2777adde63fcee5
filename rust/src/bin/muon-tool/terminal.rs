//! The width of the terminal.

use std::env;
use std::ffi::{c_int, c_ulong};

/// The columns, where neither `COLUMNS` nor the terminal tells them.
const COLUMNS: usize = 80;
/// With fewer the widest cell would not fit between the dots.
const COLUMNS_LEAST: usize = 20;
const STANDARD_ERROR: c_int = 2;
/// The number of the request in Linux.
const TIOCGWINSZ: c_ulong = 0x5413;

/// `struct winsize` of the C library.
#[repr(C)]
#[derive(Default)]
struct Size {
    rows: u16,
    columns: u16,
    x_pixels: u16,
    y_pixels: u16,
}

extern "C" {
    fn ioctl(file: c_int, request: c_ulong, ...) -> c_int;
}

fn told_by_environment() -> Option<usize> {
    env::var("COLUMNS").ok()?.parse().ok()
}

/// None if standard error is no terminal, or one that doesn't know its width.
fn told_by_terminal() -> Option<usize> {
    let mut size = Size::default();
    // SAFETY: the request writes one `struct winsize`, which `size` is and which
    // nothing else has; a file that is no terminal, or closed, is refused.
    let is_told = unsafe { ioctl(STANDARD_ERROR, TIOCGWINSZ, &mut size) } == 0;
    (is_told && size.columns > 0).then(|| size.columns.into())
}

/// The columns for what goes to standard error.
pub fn columns() -> usize {
    let told = told_by_environment().or_else(told_by_terminal);
    told.unwrap_or(COLUMNS).max(COLUMNS_LEAST)
}
