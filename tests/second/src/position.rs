//! Line and column of a place in a text.

/// Both are counted from 1.
#[derive(Clone, Copy, Debug, PartialEq, Eq)]
pub struct Position {
    pub line: usize,
    pub column: usize,
}

/// The line by the bytes 0A before the place, the column by the characters
/// since that end before it or at it.  Beyond the text the place is its end.
pub fn position(text: &[u8], place: usize) -> Position {
    let place = place.min(text.len());
    let lines: Vec<&[u8]> = text[..place].split(|&byte| byte == b'\n').collect();
    let begin = place - lines.last().map_or(0, |line| line.len());
    Position {
        line: lines.len(),
        column: 1 + ends(&text[begin..])
            .take_while(|end| begin + end <= place)
            .count(),
    }
}

/// Where each character ends.  What is in no well-formed sequence is as many
/// characters as bytes.
fn ends(text: &[u8]) -> impl Iterator<Item = usize> + '_ {
    let lengths = text.utf8_chunks().flat_map(|chunk| {
        let valid = chunk.valid().chars().map(char::len_utf8);
        valid.chain(chunk.invalid().iter().map(|_| 1))
    });
    lengths.scan(0, |end, length| {
        *end += length;
        Some(*end)
    })
}

#[cfg(test)]
mod tests {
    use super::*;

    fn all(text: &[u8]) -> Vec<(usize, usize)> {
        let pair = |place| {
            let Position { line, column } = position(text, place);
            (line, column)
        };
        (0..=text.len() + 1).map(pair).collect()
    }

    #[test]
    fn lines_end_at_a_line_feed() {
        assert_eq!(all(b""), [(1, 1), (1, 1)]);
        assert_eq!(all(b"a\n"), [(1, 1), (1, 2), (2, 1), (2, 1)]);
        assert_eq!(all(b"\r\n\r"), [(1, 1), (1, 2), (2, 1), (2, 2), (2, 2)]);
    }

    #[test]
    fn a_longer_sequence_is_one_character() {
        assert_eq!(
            all("é€x".as_bytes()),
            [
                (1, 1),
                (1, 1),
                (1, 2),
                (1, 2),
                (1, 2),
                (1, 3),
                (1, 4),
                (1, 4)
            ]
        );
    }

    #[test]
    fn a_byte_in_no_sequence_is_one_character() {
        let columns: Vec<usize> = all(b"a\xE2\x82b\xFF").iter().map(|at| at.1).collect();
        assert_eq!(columns, [1, 2, 3, 4, 5, 6, 6]);
        // a surrogate's bytes, and a sequence that the end cuts off
        let columns: Vec<usize> = all(b"\xED\xA0\x80\xF0\x9F").iter().map(|at| at.1).collect();
        assert_eq!(columns, [1, 2, 3, 4, 5, 6, 6]);
    }
}
