//! Comments, quoted texts and words, which may be read eight bytes at once:
//! with each byte, and each two that limits lie between, at every place of a
//! row.

use super::encoded::within;

/// What stands around a row: comments, closed or not, by themselves, between
/// segments and between digits; quoted texts, plain and with escapes; words.
pub const FRAMES: [(&[u8], &[u8]); 10] = [
    (b"`", b"`5"),
    (b"`", b""),
    (b"\"a\"`", b"`\"b\""),
    (b"1`", b"`2"),
    (b"\"", b"\""),
    (b"\"", b""),
    (b"\"\\", b"\""),
    (b"", b""),
    (b"w", b"(z"),
    (b"::", b"::\"z\""),
];

/// The longest row is two times eight bytes and one.
const LENGTHS: [usize; 6] = [7, 8, 9, 15, 16, 17];

/// The bytes at both sides of each limit, and some that matter by themselves.
const LIMITS: &[u8] = b"\x00\x09\x0A\x1F !\"#/0:9@AZ[\\]^_`az{~\x7F\x80\x85\xA9\xBF\xC2\xE0\xFF";

/// Characters of more than one byte, and escapes.
const LONGER: [&[u8]; 7] = [
    b"\xC2\x85",
    b"\xC3\xA9",
    b"\xE2\x82\xAC",
    b"\xF0\x9F\x98\x80",
    b"\\n",
    b"\\<0c65>",
    b"\\<0cxD800>",
];

/// A row that goes on a word.
pub fn row(length: usize) -> Vec<u8> {
    b"aZ_09zA5b".iter().copied().cycle().take(length).collect()
}

/// In their frames.
pub fn framed((open, close): (&[u8], &[u8]), row: &[u8]) -> Vec<u8> {
    [open, row, close].concat()
}

pub fn row_texts() -> Vec<Vec<u8>> {
    let mut rows: Vec<Vec<u8>> = LENGTHS.map(row).to_vec();
    let bytes: Vec<[u8; 1]> = (0..=u8::MAX).map(|byte| [byte]).collect();
    let single = bytes.iter().map(<[u8; 1]>::as_slice).chain(LONGER);
    for piece in single {
        rows.extend(
            LENGTHS
                .iter()
                .flat_map(|&length| within(&[piece], &row(length))),
        );
    }
    for first in LIMITS {
        for second in LIMITS {
            rows.extend(within(&[&[*first, *second]], &row(14)));
        }
    }
    let frames = |row: &Vec<u8>| FRAMES.map(|frame| framed(frame, row));
    rows.iter().flat_map(frames).collect()
}

#[cfg(test)]
mod tests {
    use super::*;
    use crate::tree;

    #[test]
    fn plain_rows_are_accepted_where_they_are_closed() {
        for length in LENGTHS {
            let answers = FRAMES.map(|frame| {
                let mut table = [0; 60];
                tree::read(2, &framed(frame, &row(length)), &mut table).number
            });
            assert_eq!(answers, [0, 4, 0, 0, 0, 4, 0, 0, 6, 0], "{length}");
        }
    }

    #[test]
    fn every_byte_stands_at_every_place_of_eight() {
        let all = row_texts();
        for byte in 0..=u8::MAX {
            for place in 0..8 {
                let mut text = row(15);
                text.insert(place, byte);
                assert!(all.contains(&text), "{byte:02X} at {place}");
            }
        }
    }
}
