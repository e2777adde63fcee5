use super::{check, length, of, write, FILE_MAX};
use crate::answer::{
    Answer, BAD_VALUE, NOT_THE_FILE, NOT_THE_MARK, OTHER_VERSION, RETIRED_ARROW, TEXT_MAX,
    TOO_LONG, WRONG_PLACE,
};
use crate::samples::{before, members, readings};
use crate::tree::Rules;

const FILLED: u8 = 0xA5;

/// What is written to a buffer of so many bytes; those behind it stay.
fn writes(text: &[u8], room: usize) -> (Answer, Vec<u8>) {
    let mut buffer = vec![FILLED; room];
    let answer = write(text, &mut buffer);
    let written = if answer.number == 0 { answer.count } else { 0 };
    assert!(buffer[written..].iter().all(|&byte| byte == FILLED));
    buffer.truncate(written);
    (answer, buffer)
}

/// The file of a text that has one.
fn file(text: &[u8]) -> Vec<u8> {
    let (answer, file) = writes(text, FILE_MAX);
    assert_eq!(answer, Answer::accepted(text.len(), file.len()));
    file
}

fn refused(text: &[u8], file: &[u8], number: u32) {
    let shown = format!("{} of {}", file.escape_ascii(), text.escape_ascii());
    assert_eq!(check(text, file), Answer::refused(number, 0), "{shown}");
}

#[test]
fn files_of_the_readings() {
    for &(text, room, number, place, count, bytes) in readings::FILES {
        let want = Answer {
            number,
            place,
            count,
        };
        assert_eq!(writes(text, room), (want, bytes.to_vec()));
    }
}

#[test]
fn checks_of_the_readings() {
    for &(text, file, number) in readings::CHECKS {
        refused(text, file, number);
    }
}

#[test]
fn the_file_of_a_pair() {
    let hex = "464e54 0001 0003 0005 \
               0009 0000 0005 0000 0000 0000 \
               0007 0001 0002 0000 0001 0002 \
               0007 0003 0004 0000 0002 0002";
    let digits: Vec<char> = hex.chars().filter(|digit| *digit != ' ').collect();
    let found: String = file(b"(x:y)")
        .iter()
        .map(|byte| format!("{byte:02x}"))
        .collect();
    assert_eq!(found, digits.into_iter().collect::<String>());
    assert_eq!(length(3), 45);
    assert_eq!(check(b"(x:y)", &file(b"(x:y)")), Answer::accepted(5, 45));
}

/// What was stored with an arrow is still taken, and no more is stored; what was
/// stored when a node had six words is what is stored today.
#[test]
fn files_of_before() {
    for &(text, file) in before::ARROWS {
        assert_eq!(of(Rules::Old, text).as_deref(), Ok(file));
        assert_eq!(check(text, file), Answer::accepted(text.len(), file.len()));
        let (answer, written) = writes(text, FILE_MAX);
        assert_eq!((answer.number, written), (RETIRED_ARROW, vec![]));
        assert_eq!(of(Rules::Today, text), Err(answer));
        assert!(text[answer.place..].starts_with(b"<-"));
    }
    for (text, stored) in before::unchanged() {
        assert_eq!(file(&text), stored, "{}", text.escape_ascii());
        let accepted = Answer::accepted(text.len(), stored.len());
        assert_eq!(check(&text, stored), accepted);
    }
    // the same pair by today's rules has another file
    refused(b"(b<-a)", &file(b"(a->b)"), NOT_THE_FILE);
    refused(b"(a->b)", before::ARROWS[0].1, NOT_THE_FILE);
}

#[test]
fn no_room() {
    let whole = file(b"(x:y)");
    assert_eq!(writes(b"(x:y)", 45), (Answer::accepted(5, 45), whole));
    for room in [0, 1, 44] {
        assert_eq!(writes(b"(x:y)", room).0, Answer::no_room(5, 45));
    }
    // the reader's refusals come first
    let refusal = Answer::refused(WRONG_PLACE, 2);
    assert_eq!(writes(b"(x", 0), (refusal, vec![]));
}

/// The writer hands the reader's place on; the checker has none.
#[test]
fn an_escape_out_of_range() {
    let text = br#"(x:"a" "\\<0cxD800>")"#;
    assert_eq!(writes(text, 0).0, Answer::refused(BAD_VALUE, 9));
    assert_eq!(of(Rules::Old, text), Err(Answer::refused(BAD_VALUE, 9)));
    refused(text, &file(br#"(x:"a" "\<<0cxD800>")"#), NOT_THE_FILE);
}

#[test]
fn as_if_with_room_for_1024_nodes() {
    let most = file(&members(2048));
    assert_eq!((most.len(), FILE_MAX), (12_297, 12_297));
    assert_eq!(most[5..9], [4, 0, 8, 0]);
    assert_eq!(check(&members(2048), &most).number, 0);
    let more = members(2050);
    assert_eq!(writes(&more, 100_000).0, Answer::no_room(2050, 1025));
    assert_eq!(writes(&more, 0).0, Answer::no_room(2050, 1025));
    refused(&more, &most, NOT_THE_FILE);
}

#[test]
fn the_longest_text() {
    let mut text = vec![b' '; TEXT_MAX];
    text[TEXT_MAX - 1] = b'5';
    let stored = file(&text);
    assert_eq!(stored[5..13], [0, 1, 0x80, 0, 0, 3, 0x7F, 0xFF]);
    assert_eq!(stored[13..15], [0x80, 0]);
    text.push(b' ');
    assert_eq!(writes(&text, 100).0, Answer::refused(TOO_LONG, 0));
    refused(&text, &stored, NOT_THE_FILE);
}

#[test]
fn read_at_level_2() {
    assert_eq!(file(b"[1..10]")[9..12], [0, 15, 0]);
    assert_eq!(
        writes(b"(Mix:{})", 100).0,
        Answer::refused(crate::answer::NEWER_FORM, 0)
    );
}

/// The mark and the whole text's length are counted.
#[test]
fn a_front_that_is_dropped() {
    let stored = file(b"\xEF\xBB\xBF#!x\n5 ");
    assert_eq!(stored[5..9], [0, 1, 0, 9]);
    assert_eq!(stored[11..15], [0, 7, 0, 8]);
}

/// Whatever is changed, cut off or added: the first five bytes tell 12 and 13.
#[test]
fn any_other_bytes() {
    let text = b"(x:y)";
    let whole = file(text);
    for at in 0..whole.len() {
        let number = match at {
            0..=2 => NOT_THE_MARK,
            3..=4 => OTHER_VERSION,
            _ => NOT_THE_FILE,
        };
        for bits in 1..=255 {
            let mut other = whole.clone();
            other[at] ^= bits;
            refused(text, &other, number);
        }
        let number = if at < 5 { NOT_THE_MARK } else { NOT_THE_FILE };
        refused(text, &whole[..at], number);
    }
    refused(text, &[&whole[..], &[0]].concat(), NOT_THE_FILE);
}

#[test]
fn the_file_tells_what_was_read_and_not_the_bytes() {
    assert_eq!(file(b"x"), file(b"y"));
    assert_eq!(check(b"y", &file(b"x")), Answer::accepted(1, 21));
    refused(b"5", &file(b"x"), NOT_THE_FILE);
    refused(b"x ", &file(b"x"), NOT_THE_FILE);
}
