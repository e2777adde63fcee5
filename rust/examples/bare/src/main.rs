//! A program without the standard library and without an allocator, as in a
//! machine's controller: reads a setting of a text by its name, and exits with it.
//! If something is refused, the exit code is 255.
//!
//! It does not link if the library needs either: the panic handler would be there
//! twice, or the allocator missing.
//!
//! `cargo run --manifest-path examples/bare/Cargo.toml`

#![no_std]
#![no_main]

use core::ffi::c_int;
use core::panic::PanicInfo;
use muon::{Document, TABLE_MAX};

const TEXT: &[u8] = b"(speed : 4_2, site : creek) `as the fitter left it`";

// For what runs before and behind main.
#[link(name = "c")]
extern "C" {
    fn abort() -> !;
}

// The core library of a target with an operating system asks for it; nothing
// unwinds here.
#[no_mangle]
extern "C" fn rust_eh_personality() {}

#[panic_handler]
fn panic(_: &PanicInfo) -> ! {
    // SAFETY: it takes nothing, and does not return.
    unsafe { abort() }
}

fn speed() -> Option<i64> {
    let mut table = [0; TABLE_MAX];
    let document = Document::read(2, TEXT, &mut table).ok()?;
    document.root().get("speed").ok()?.integer().ok()
}

#[no_mangle]
extern "C" fn main() -> c_int {
    speed()
        .and_then(|speed| speed.try_into().ok())
        .unwrap_or(255)
}
