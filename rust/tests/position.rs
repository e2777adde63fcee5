//! Lines and columns.

use muon::{line_column, Position};
use std::str;

/// Line and column by the rule alone.
fn expected(text: &[u8], place: usize) -> Position {
    let place = place.min(text.len());
    let line = 1 + text[..place].iter().filter(|byte| **byte == b'\n').count();
    let feed = text[..place].iter().rposition(|byte| *byte == b'\n');
    let mut at = feed.map_or(0, |feed| feed + 1);
    let mut column = 1;
    loop {
        at += (1..=4)
            .find(|length| {
                let bytes = text.get(at..at + length);
                bytes.is_some_and(|bytes| str::from_utf8(bytes).is_ok())
            })
            .unwrap_or(1);
        if at > place || at > text.len() {
            return Position { line, column };
        }
        column += 1;
    }
}

#[test]
fn some_places() {
    for (text, place, line, column) in [
        (&b""[..], 0, 1, 1),
        (b"", 9, 1, 1),
        (b"abc", 0, 1, 1),
        (b"abc", 2, 1, 3),
        (b"abc", 3, 1, 4),
        (b"abc", 4, 1, 4),
        (b"abc", usize::MAX, 1, 4),
        (b"a\nb", 1, 1, 2),
        (b"a\nb", 2, 2, 1),
        (b"a\n", 2, 2, 1),
        (b"a\r\nb", 2, 1, 3),
        ("é€😀".as_bytes(), 1, 1, 1),
        ("é€😀".as_bytes(), 2, 1, 2),
        ("é€😀".as_bytes(), 4, 1, 2),
        ("é€😀".as_bytes(), 5, 1, 3),
        ("é€😀".as_bytes(), 8, 1, 3),
        ("é€😀".as_bytes(), 9, 1, 4),
        (b"\xFF\xFE\n\xC3", 1, 1, 2),
        (b"\xFF\xFE\n\xC3", 4, 2, 2),
        (b"\xE2\x82", 2, 1, 3),
    ] {
        let position = line_column(text, place);
        assert_eq!(
            position,
            Position { line, column },
            "{}@{place}",
            text.escape_ascii()
        );
        assert_eq!(position, expected(text, place));
        assert_eq!(position.to_string(), format!("{line}:{column}"));
    }
}

/// Every text of four of these pieces, at every place.
#[test]
fn every_place() {
    let pieces: [&[u8]; 9] = [
        b"",
        b"a",
        b"\n",
        b"\xC3",
        b"\xA9",
        "€".as_bytes(),
        "😀".as_bytes(),
        b"\xED\xA0\x80",
        b"\xF0\x9F",
    ];
    for number in 0..pieces.len().pow(4) {
        let chosen = [1, 9, 81, 729].map(|power| pieces[number / power % pieces.len()]);
        let text = chosen.concat();
        for place in 0..text.len() + 2 {
            let shown = text.escape_ascii();
            assert_eq!(
                line_column(&text, place),
                expected(&text, place),
                "{shown}@{place}"
            );
        }
    }
}

#[test]
fn a_text_of_any_length() {
    let text = "é\n".repeat(100_000).into_bytes();
    let end = Position {
        line: 100_001,
        column: 1,
    };
    assert_eq!(line_column(&text, text.len()), end);
    assert_eq!(line_column(&text, usize::MAX), end);
}
