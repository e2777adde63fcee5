//! What is said of a refusal.

use crate::excerpt::excerpt;
use crate::failure::Failure;
use crate::hint::hint;
use crate::input::Input;
use crate::terminal::columns;
use muon::{Error, Refusal, NODES_MAX};

fn reason(refusal: Refusal) -> String {
    format!("refused ({}): {refusal}", refusal.number())
}

/// Of a stored file, which has no lines.
pub fn of_stored(name: &str, refusal: Refusal) -> Failure {
    Failure::Refused(format!("{name}: {}\n", reason(refusal)))
}

/// Of a text that was read at this level: the reason with line and column, the
/// line with a caret, and a hint if there is one.
pub fn of_text(input: &Input, level: u32, error: &Error) -> Failure {
    let text = &input.bytes;
    let (name, reason) = (&input.name, reason(error.refusal));
    let mut report = format!("{name}:{}: {reason}", error.position);
    if error.refusal == Refusal::NoRoom {
        report += &format!(": {} nodes, at most {NODES_MAX}", error.count);
    }
    report.push('\n');
    // of these the place is not where anything is wrong
    if ![Refusal::TooLong, Refusal::NoRoom].contains(&error.refusal) {
        report += &excerpt(text, error.place, columns());
    }
    if let Some(hint) = hint(text, level, error) {
        report += &format!("hint: {hint}\n");
    }
    Failure::Refused(report)
}
