//! Stored files.

#![cfg(feature = "alloc")]

mod answers;

use answers::{accepted, refused};
use muon::{file, Answer, Refusal};

const PAIR: &[u8] = b"FNT\0\x01\0\x03\0\x05\
    \0\x09\0\0\0\x05\0\0\0\0\0\0\
    \0\x07\0\x01\0\x02\0\0\0\x01\0\x02\
    \0\x07\0\x03\0\x04\0\0\0\x02\0\x02";

/// Of `(b<-a)`, stored before the arrow was retired.
const OLD: &[u8] = b"FNT\0\x01\0\x03\0\x06\
    \0\x09\0\0\0\x06\0\0\0\0\0\0\
    \0\x07\0\x01\0\x02\0\0\0\x03\0\x02\
    \0\x07\0\x04\0\x05\0\0\0\x01\0\x02";

fn written(text: &[u8], room: usize) -> (Answer, Vec<u8>) {
    answers::written(|buffer| file::write(text, buffer), room)
}

/// The refusal of a check; its place and count are 0.
fn fault(text: &[u8], stored: &[u8]) -> Option<Refusal> {
    let answer = file::check(text, stored);
    let expected = match answer.is_accepted() {
        true => (text.len(), stored.len()),
        false => (0, 0),
    };
    assert_eq!((answer.place, answer.count), expected);
    answer.refusal()
}

/// A Lot with so many nodes, itself counted.
fn nodes(number: usize) -> Vec<u8> {
    format!("{{{}}}", "a,".repeat(number - 1)).into_bytes()
}

#[test]
fn a_pair() {
    for room in [PAIR.len(), PAIR.len() + 1, 1_000] {
        assert_eq!(written(b"(x:y)", room), (accepted(5, 45), PAIR.to_vec()));
    }
    for room in [0, 1, 9, PAIR.len() - 1] {
        let no_room = refused(Refusal::NoRoom, 5, 45);
        assert_eq!(written(b"(x:y)", room), (no_room, vec![]));
    }
    assert_eq!(file::check(b"(x:y)", PAIR), accepted(5, 45));
    assert_eq!(file::to_vec(b"(x:y)"), Ok(PAIR.to_vec()));
}

/// The words that a reading at level 2 writes, high byte first.
#[test]
fn the_words_of_a_reading() {
    for text in [
        &b"5"[..],
        b"\xEF\xBB\xBF#!x\n{a : [1 <=*< 2], 0xyAA== : (Bag:{b : 2})}\n",
        b"(0bTRUE, name : 0c65, ::a::b : -1.5*2^3)",
    ] {
        let mut table = [0; muon::TABLE_MAX];
        let count = muon::read(2, text, &mut table)
            .accepted()
            .expect("a good text");
        let stored = file::to_vec(text).expect("a good text");
        let numbers: Vec<u32> = stored[3..]
            .chunks(2)
            .map(|bytes| u32::from(bytes[0]) * 256 + u32::from(bytes[1]))
            .collect();
        let head = [u32::from(file::VERSION), count as u32, text.len() as u32];
        assert_eq!(numbers[..3], head);
        // the skip is not stored
        let words: Vec<u32> = table
            .chunks(muon::NODE_WORDS)
            .take(count)
            .flat_map(|node| node[..6].to_vec())
            .collect();
        assert_eq!(numbers[3..], words);
        assert_eq!(fault(text, &stored), None);
    }
}

/// The reader's, with or without room in the buffer.
#[test]
fn every_refusal_of_a_writing() {
    for (text, answer) in [
        (
            vec![b' '; muon::TEXT_MAX + 1],
            refused(Refusal::TooLong, 0, 0),
        ),
        (b"ab\xFF".to_vec(), refused(Refusal::NotUtf8, 2, 0)),
        (b"\"a".to_vec(), refused(Refusal::NoToken, 0, 0)),
        (b" 1/0".to_vec(), refused(Refusal::BadValue, 1, 0)),
        (
            br#"(x:"\\<0cx110000>")"#.to_vec(),
            refused(Refusal::BadValue, 5, 0),
        ),
        (b"(x".to_vec(), refused(Refusal::WrongPlace, 2, 0)),
        (vec![], refused(Refusal::WrongPlace, 0, 0)),
        (b"(Mix:{})".to_vec(), refused(Refusal::NewerForm, 0, 0)),
        (vec![b'{'; 33], refused(Refusal::TooDeep, 32, 0)),
        (nodes(1_025), refused(Refusal::NoRoom, 2_050, 1_025)),
        (b"(x<-y)".to_vec(), refused(Refusal::RetiredArrow, 2, 0)),
    ] {
        for room in [0, 45, file::MAX + 1] {
            assert_eq!(written(&text, room), (answer, vec![]));
        }
        assert_eq!(file::to_vec(&text).err(), answer.accepted_in(&text).err());
        assert_eq!(fault(&text, PAIR), Some(Refusal::NotTheFile));
    }
}

/// Still accepted, byte for byte, and no more written.
#[test]
fn a_file_of_before() {
    assert_eq!(file::check(b"(b<-a)", OLD), accepted(6, 45));
    let refused = file::to_vec(b"(b<-a)").map_err(|error| error.refusal);
    assert_eq!(refused, Err(Refusal::RetiredArrow));
    for text in [&b"(a->b)"[..], b"(b->a)", b"{b<-a}", b"(b<-5)"] {
        assert_eq!(fault(text, OLD), Some(Refusal::NotTheFile));
    }
    for at in 5..OLD.len() {
        let mut other = OLD.to_vec();
        other[at] ^= 1;
        assert_eq!(fault(b"(b<-a)", &other), Some(Refusal::NotTheFile));
    }
}

#[test]
fn the_longest_file() {
    let text = nodes(muon::NODES_MAX);
    let (answer, stored) = written(&text, file::MAX);
    assert_eq!(answer, accepted(text.len(), file::MAX));
    assert_eq!(fault(&text, &stored), None);
    let short = written(&text, file::MAX - 1).0;
    assert_eq!(short, refused(Refusal::NoRoom, text.len(), file::MAX));
}

#[test]
fn the_longest_text() {
    let mut text = vec![b' '; muon::TEXT_MAX];
    text[muon::TEXT_MAX - 1] = b'5';
    let stored = file::to_vec(&text).expect("a good text");
    assert_eq!(
        stored[7..],
        [128, 0, 0, 3, 127, 255, 128, 0, 0, 0, 0, 0, 0, 0]
    );
    assert_eq!(fault(&text, &stored), None);
}

/// The first five bytes decide without the text.
#[test]
fn mark_and_version() {
    let too_long = vec![b' '; muon::TEXT_MAX + 1];
    for text in [&b"(x:y)"[..], b"(x", b"", b"\xFF", &too_long] {
        for stored in [&b""[..], b"F", b"FNT", b"FNT\0", b"fNT\0\x01", b"FNX\0\x02"] {
            assert_eq!(fault(text, stored), Some(Refusal::NotTheMark));
        }
        for stored in [&b"FNT\0\0"[..], b"FNT\0\x02", b"FNT\x01\0", b"FNT\x01\x01"] {
            assert_eq!(fault(text, stored), Some(Refusal::OtherVersion));
        }
        assert_eq!(fault(text, b"FNT\0\x01"), Some(Refusal::NotTheFile));
    }
}

#[test]
fn every_byte_counts() {
    for at in 0..PAIR.len() {
        let refusal = match at {
            0..=2 => Refusal::NotTheMark,
            3..=4 => Refusal::OtherVersion,
            _ => Refusal::NotTheFile,
        };
        for bits in 1..=255 {
            let mut other = PAIR.to_vec();
            other[at] ^= bits;
            assert_eq!(fault(b"(x:y)", &other), Some(refusal), "byte {at}");
        }
        let cut = match at {
            0..=4 => Refusal::NotTheMark,
            _ => Refusal::NotTheFile,
        };
        assert_eq!(fault(b"(x:y)", &PAIR[..at]), Some(cut), "{at} bytes");
    }
    let longer = [PAIR, &[0]].concat();
    assert_eq!(fault(b"(x:y)", &longer), Some(Refusal::NotTheFile));
}

/// What was read, and not the text's bytes.
#[test]
fn the_file_of_another_text() {
    assert_eq!(fault(b"(a:b)", PAIR), None);
    for text in [&b"(a,b)"[..], b"(x:5)", b"(x:y) ", b" (x:y)", b"{x:y}"] {
        assert_eq!(fault(text, PAIR), Some(Refusal::NotTheFile));
    }
}
