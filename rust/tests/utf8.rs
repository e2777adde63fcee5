//! The UTF-8 test as a call of its own.

use muon::{Refusal, Utf8Answer};

fn accepted(place: usize, steps: usize) -> Utf8Answer {
    Utf8Answer {
        number: 0,
        place,
        steps,
    }
}

fn refused(place: usize, steps: usize) -> Utf8Answer {
    Utf8Answer {
        number: Refusal::NotUtf8.number(),
        place,
        steps,
    }
}

#[test]
fn answers() {
    for (text, answer) in [
        (&b""[..], accepted(0, 0)),
        (b"a", accepted(1, 1)),
        (b"aaaaaaa", accepted(7, 7)),
        (b"aaaaaaaa", accepted(8, 1)),
        (b"aaaaaaaaaaaaaaaaa", accepted(17, 3)),
        (b"\0\0\0\0\x7F\x7F\x7F\x7F", accepted(8, 1)),
        ("\u{e9}\u{20AC}\u{1F600}".as_bytes(), accepted(9, 3)),
        ("\u{e9}aaaaaaaa".as_bytes(), accepted(10, 2)),
        (b"\xFF", refused(0, 0)),
        (b"aaaaaaaa\x80", refused(8, 1)),
        (b"aaaaaaaaa\xE2\x82", refused(9, 2)),
        (b"aaaa\xC0\xAFaaaaaaaa", refused(4, 4)),
        (b"\xED\xA0\x80", refused(0, 0)),
        (b"aaaaaaa\xC3\xA9bbbbbbbbb\xFF", refused(18, 10)),
    ] {
        let found = muon::utf8(text);
        assert_eq!(found, answer, "{}", text.escape_ascii());
        assert_eq!(found.is_accepted(), answer.number == 0);
        let outcome = match answer.number {
            0 => Ok(answer.steps),
            _ => Err(Refusal::NotUtf8),
        };
        assert_eq!(found.accepted(), outcome);
        assert_eq!(found.refusal(), outcome.err());
    }
}

/// Longer than a text that is read.
#[test]
fn a_text_of_any_length() {
    for length in [muon::TEXT_MAX, muon::TEXT_MAX + 1, 1_000_003] {
        let mut text = vec![b'a'; length];
        assert_eq!(muon::utf8(&text), accepted(length, length / 8 + length % 8));
        text.push(0xFF);
        assert_eq!(muon::utf8(&text), refused(length, length / 8 + length % 8));
    }
}

/// Refusal 3 of the other calls is this test's, with its place.
#[test]
fn the_test_of_the_other_calls() {
    for text in [&b"\"caf\xC3\xA9\xFF\""[..], b"`a comment \xC3`", b"\x80"] {
        let answer = muon::utf8(text);
        let read = muon::read(2, text, &mut []);
        assert_eq!((read.number, read.place), (answer.number, answer.place));
        let integer = muon::integer(text);
        assert_eq!(
            (integer.number, integer.place),
            (answer.number, answer.place)
        );
        for call in [muon::text, muon::blob, muon::bits] {
            let value = call(text, &mut []);
            assert_eq!((value.number, value.place), (answer.number, answer.place));
        }
    }
}
