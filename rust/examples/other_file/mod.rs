//! What the examples that write a text's form share: to another file than the
//! text's, or to standard output.

use crate::whole_file::{said, Failure};
use std::ffi::OsString;
use std::fs;
use std::io::{self, Write};
use std::os::unix::fs::MetadataExt;
use std::path::Path;

/// By whatever name, a link too.  A file that is not there yet is another one.
fn is_same(one: &OsString, other: &OsString) -> bool {
    let file = |path| fs::metadata(path).map(|told| (told.dev(), told.ino()));
    matches!((file(one), file(other)), (Ok(one), Ok(other)) if one == other)
}

/// Fails if what is to be written is the text itself.
pub fn check_other(text: &OsString, other: &OsString) -> Result<(), Failure> {
    if is_same(text, other) {
        let path = Path::new(text).display();
        return Err((format!("{path}: would be written over"), 2));
    }
    Ok(())
}

pub fn print(form: &[u8]) -> Result<(), Failure> {
    let mut out = io::stdout();
    // what stands behind the last line's end is kept back until then
    let written = out.write_all(form).and_then(|()| out.flush());
    written.map_err(|error| said("standard output", error))
}
