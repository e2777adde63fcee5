//! The value of a literal, in one line.

use crate::quoting::{quoted, shown};
use muon::{plain, Branch, Kind};
use std::fmt::Write;

/// Whether a node has a value of its own and no children, as a Nesting has, too.
pub fn is_literal(branch: &Branch) -> bool {
    branch.kind() <= Kind::Nesting
}

/// An Integer in decimal, a Text as a JSON string, a Blob in hexadecimal, Bits
/// and Booleans by their names; of the other kinds the plain form, which is what
/// was written less space, comments and `_`.
///
/// Only an Integer may be refused, as out of range, since the text is accepted.
pub fn value(literal: Branch) -> String {
    let value = match literal.kind() {
        Kind::Boolean => Ok(literal.detail().to_string()),
        Kind::Integer => literal.integer().map(|value| value.to_string()),
        Kind::Bits => literal.to_bits().map(|bits| digits(&bits)),
        Kind::Blob => literal.to_blob().map(|bytes| hexadecimal(&bytes)),
        Kind::Text => literal.to_text().map(|text| quoted(&text)),
        _ => {
            let level = literal.document().level();
            plain::to_vec(level, literal.bytes()).map(|form| shown(&form))
        }
    };
    value.unwrap_or_else(|error| error.refusal.name().to_string())
}

fn digits(bits: &[u8]) -> String {
    bits.iter().map(|bit| char::from(b'0' + bit)).collect()
}

fn hexadecimal(bytes: &[u8]) -> String {
    let mut digits = String::new();
    for byte in bytes {
        // writing to a String does not fail
        let _ = write!(digits, "{byte:02X}");
    }
    digits
}
