//! What the examples that read a whole file share: the reading, and how they end.

use std::fs;
use std::io::{self, Read};
use std::path::Path;
use std::process::ExitCode;

/// Why an example fails, and its exit code.
pub type Failure = (String, u8);

/// What the operating system said of a path.
pub fn said(path: impl AsRef<Path>, error: io::Error) -> Failure {
    (format!("{}: {error}", path.as_ref().display()), 2)
}

/// Why and where the text in a file is refused, as editors find it.
pub fn refused(path: impl AsRef<Path>, error: muon::Error) -> Failure {
    (format!("{}:{error}", path.as_ref().display()), 1)
}

/// A byte more than is of use is enough to know that there are too many.
pub fn input(path: impl AsRef<Path>, most: usize) -> Result<Vec<u8>, Failure> {
    let mut bytes = Vec::new();
    fs::File::open(&path)
        .and_then(|file| file.take(most as u64 + 1).read_to_end(&mut bytes))
        .map_err(|error| said(path, error))?;
    Ok(bytes)
}

/// The exit code; the reason of a failure goes to standard error.
pub fn exit_code(outcome: Result<(), Failure>) -> ExitCode {
    match outcome {
        Ok(()) => ExitCode::SUCCESS,
        Err((reason, code)) => {
            eprintln!("{reason}");
            ExitCode::from(code)
        }
    }
}
