//! How the tool fails: what is said, and the exit status.

use std::io::{self, Write};
use std::process::ExitCode;

/// Why nothing, or not all, was done.
pub enum Failure {
    /// The text or the stored file is refused, or has not the value that is asked
    /// for; the lines of the report.
    Refused(String),
    /// The words of the call are none of the tool's; without the tool's name.
    Usage(String),
    /// A file cannot be read or written; without the tool's name.
    File(String),
    /// Nobody reads standard output any more, so there is nobody to be told.
    Closed,
}

impl Failure {
    /// Of a file by its name, what the operating system said.
    pub fn file(name: &str, error: io::Error) -> Failure {
        Failure::File(format!("{name}: {error}"))
    }

    /// Says it on standard error, and gives the status.
    pub fn told(self) -> ExitCode {
        let (said, status) = match self {
            Failure::Refused(report) => (report, 1),
            Failure::Usage(reason) => {
                let help = "`muon-tool --help` tells the commands";
                (format!("muon-tool: {reason}; {help}\n"), 2)
            }
            Failure::File(reason) => (format!("muon-tool: {reason}\n"), 2),
            Failure::Closed => (String::new(), 2),
        };
        // if standard error is closed, the status has to do
        let _ = io::stderr().write_all(said.as_bytes());
        ExitCode::from(status)
    }
}
