//! What is read, made fit for a terminal: nothing steers it, and everything is
//! seen.

use crate::pieces::{pieces, What};
use std::fmt::Write;

/// Format characters that are not seen, or that change how others are: soft
/// hyphen, joiners and spaces of no width, marks of direction, line and
/// paragraph separators, the byte-order mark, annotations and tags.
const UNSEEN: [(u32, u32); 9] = [
    (0xAD, 0xAD),
    (0x61C, 0x61C),
    (0x180E, 0x180E),
    (0x200B, 0x200F),
    (0x2028, 0x202E),
    (0x2060, 0x206F),
    (0xFEFF, 0xFEFF),
    (0xFFF9, 0xFFFB),
    (0xE0000, 0xE007F),
];

/// Whether a character is shown by its number: control and format characters.
pub fn is_unseen(character: char) -> bool {
    let number = u32::from(character);
    let within = |(low, high): &(u32, u32)| (*low..=*high).contains(&number);
    character.is_control() || UNSEEN.iter().any(within)
}

/// A character or byte by its number: `<1B>` is a byte, `<U+202E>` a character.
pub fn numbered(what: What) -> String {
    match what {
        What::Byte(byte) => format!("<{byte:02X}>"),
        What::Character(character) if character.is_ascii() => {
            format!("<{:02X}>", u32::from(character))
        }
        What::Character(character) => format!("<U+{:04X}>", u32::from(character)),
    }
}

/// Bytes on one line: what is not seen, and what is not UTF-8, by its number.
pub fn shown(bytes: &[u8]) -> String {
    let mut shown = String::new();
    for piece in pieces(bytes) {
        match piece.what {
            What::Character(character) if !is_unseen(character) => shown.push(character),
            other => shown.push_str(&numbered(other)),
        }
    }
    shown
}

/// Characters in quotes, as JSON has them.
pub fn quoted(text: &str) -> String {
    let mut quoted = String::from('"');
    for character in text.chars() {
        match character {
            '"' => quoted.push_str("\\\""),
            '\\' => quoted.push_str("\\\\"),
            '\n' => quoted.push_str("\\n"),
            '\r' => quoted.push_str("\\r"),
            '\t' => quoted.push_str("\\t"),
            _ if is_unseen(character) => push_units(&mut quoted, character),
            _ => quoted.push(character),
        }
    }
    quoted.push('"');
    quoted
}

/// A character beyond FFFF is two units.
fn push_units(quoted: &mut String, character: char) {
    for unit in character.encode_utf16(&mut [0; 2]) {
        // writing to a String does not fail
        let _ = write!(quoted, "\\u{unit:04X}");
    }
}
