//! The converter.

#![cfg(feature = "alloc")]

mod answers;

use answers::{accepted, refused};
use muon::{convert, plain, Answer, Refusal};

fn written(level: u32, text: &[u8], room: usize) -> (Answer, Vec<u8>) {
    answers::written(|buffer| convert::write(level, text, buffer), room)
}

/// Converted with room to spare, with just enough, with a byte less and with
/// none; and what was written converted and written plainly again.
fn converts(level: u32, text: &str, form: &str) {
    let (text, form) = (text.as_bytes(), form.as_bytes());
    let answer = accepted(text.len(), form.len());
    for room in [form.len(), form.len() + 1, plain::bytes(text.len())] {
        assert_eq!(written(level, text, room), (answer, form.to_vec()));
    }
    for room in [0, form.len() - 1] {
        let no_room = refused(Refusal::NoRoom, text.len(), form.len());
        assert_eq!(written(level, text, room), (no_room, vec![]));
    }
    for again in [convert::to_vec, plain::to_vec] {
        assert_eq!(again(level, form), Ok(form.to_vec()));
    }
    assert_eq!(convert::to_vec(level, text), Ok(form.to_vec()));
}

#[test]
fn arrows() {
    for (text, form) in [
        ("(b<-a)", "(a:b)"),
        ("{b<-a}", "{a:b}"),
        ("{a,b<-c}", "{a,c:b}"),
        ("{a,b<-c,(d<-e)}", "{a,c:b,(e:d)}"),
        ("(a<-(b<-(c<-d)))", "(((d:c):b):a)"),
        ("\u{FEFF}#!x\n( b `c` <- ( a ) )", "(a:b)"),
        ("(Mix<-5)", "(5:\"Mix\")"),
        ("(5<-Mix)", "(\"Mix\":5)"),
        ("(a<--5)", "(-5:a)"),
        ("{::a<-::b,c->d}", "{::b:::a,c:d}"),
    ] {
        for level in [1, 2] {
            converts(level, text, form);
            let answer = muon::read(level, text.as_bytes(), &mut [0; 60]);
            assert_eq!(answer.refusal(), Some(Refusal::RetiredArrow));
            assert!(text.as_bytes()[answer.place..].starts_with(b"<-"));
        }
    }
}

/// Without an arrow it is the plain form.
#[test]
fn texts_without_arrows() {
    for (text, form) in [
        ("( , x : + 0d 1_0 , )", "(x:+0d10,)"),
        ("{,a->b,}", "{a:b}"),
        ("(x:1,x:2)", "(x:1,x:2)"),
        ("Set", "\"Set\""),
        ("[ 1 <=*< 2 ]", "[1<=*<2]"),
        ("[*<-5]", "[*<-5]"),
    ] {
        converts(2, text, form);
        assert_eq!(
            plain::to_vec(2, text.as_bytes()),
            Ok(form.as_bytes().to_vec())
        );
    }
}

/// The reader's of before, whatever the buffer is.
#[test]
fn every_refusal_of_the_reading() {
    let pairs = |number: usize| format!("{{{}}}", "b<-a,".repeat(number)).into_bytes();
    for (level, text, answer) in [
        (0, b"(b<-a)".to_vec(), refused(Refusal::Level, 0, 0)),
        (3, b"(b<-a)".to_vec(), refused(Refusal::Level, 0, 0)),
        (
            2,
            vec![b' '; muon::TEXT_MAX + 1],
            refused(Refusal::TooLong, 0, 0),
        ),
        (2, b"(b<-a)\xFF".to_vec(), refused(Refusal::NotUtf8, 6, 0)),
        (2, b"(a<-$".to_vec(), refused(Refusal::NoToken, 4, 0)),
        (2, b"(a<-1/0)".to_vec(), refused(Refusal::BadValue, 4, 0)),
        (
            1,
            br#"{a<-"\\<0cxD800>"}"#.to_vec(),
            refused(Refusal::BadValue, 6, 0),
        ),
        (2, b"(b<-a".to_vec(), refused(Refusal::WrongPlace, 5, 0)),
        (2, b"(,b<-a)".to_vec(), refused(Refusal::WrongPlace, 3, 0)),
        (2, vec![], refused(Refusal::WrongPlace, 0, 0)),
        (1, b"(b<-[5])".to_vec(), refused(Refusal::NewerForm, 4, 0)),
        (2, b"{b<-".repeat(33), refused(Refusal::TooDeep, 4 * 32, 0)),
        (2, pairs(512), refused(Refusal::NoRoom, 2_562, 1_025)),
    ] {
        for room in [0, 100, 10_000] {
            assert_eq!(written(level, &text, room), (answer, vec![]));
        }
        let error = convert::to_vec(level, &text).err();
        assert_eq!(error, answer.accepted_in(&text).err());
    }
}

/// What is longer than a text may be is written, and not read again.
#[test]
fn longer_than_a_text_may_be() {
    let text = [b"(5<-", &b"::Set".repeat(6_552)[..], b")"].concat();
    let converted = convert::to_vec(1, &text).expect("a good text");
    let nesting = b"::\"Set\"".repeat(6_552);
    assert_eq!(converted, [b"(", &nesting[..], b":5)"].concat());
    let again = convert::to_vec(1, &converted).map_err(|error| error.refusal);
    assert_eq!(again, Err(Refusal::TooLong));
}
