//! Bytes as characters, whatever they are: a well-formed UTF-8 sequence is a
//! character, a byte at which none begins stands for itself.  Columns are
//! counted so.

/// A character or a byte, and where it begins.
pub struct Piece {
    pub start: usize,
    pub what: What,
}

#[derive(Clone, Copy)]
pub enum What {
    Character(char),
    Byte(u8),
}

/// The pieces of some bytes.
pub fn pieces(bytes: &[u8]) -> Vec<Piece> {
    let mut pieces = Vec::new();
    let mut start = 0;
    for chunk in bytes.utf8_chunks() {
        for character in chunk.valid().chars() {
            let what = What::Character(character);
            pieces.push(Piece { start, what });
            start += character.len_utf8();
        }
        for byte in chunk.invalid() {
            let what = What::Byte(*byte);
            pieces.push(Piece { start, what });
            start += 1;
        }
    }
    pieces
}
