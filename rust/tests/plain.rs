//! The plain form.

#![cfg(feature = "alloc")]

mod answers;

use answers::{accepted, refused};
use muon::{plain, Answer, Refusal};

/// The words of an accepted text, and no more.
fn table(level: u32, text: &[u8]) -> Vec<u32> {
    let mut table = vec![0; muon::TABLE_MAX];
    let count = muon::read(level, text, &mut table)
        .accepted()
        .expect("a good text");
    table.truncate(count * muon::NODE_WORDS);
    table
}

fn written(level: u32, text: &[u8], table: &[u32], room: usize) -> (Answer, Vec<u8>) {
    answers::written(|buffer| plain::write(level, text, table, buffer), room)
}

/// Written with room to spare, with just enough, with a byte less and with
/// none; and the form written again.
fn has_form(level: u32, text: &str, form: &str) {
    let (text, form) = (text.as_bytes(), form.as_bytes());
    let words = table(level, text);
    let answer = accepted(text.len(), form.len());
    for room in [form.len(), form.len() + 1, plain::bytes(text.len())] {
        assert_eq!(written(level, text, &words, room), (answer, form.to_vec()));
    }
    for room in [0, form.len() - 1] {
        let no_room = refused(Refusal::NoRoom, text.len(), form.len());
        assert_eq!(written(level, text, &words, room), (no_room, vec![]));
    }
    assert_eq!(plain::to_vec(level, text), Ok(form.to_vec()));
    assert_eq!(plain::to_vec(level, form), Ok(form.to_vec()));
}

#[test]
fn forms_of_both_levels() {
    for (text, form) in [
        ("\u{FEFF}#!x\n 5 `c`", "5"),
        ("( , x : + 0d 1_0 , )", "(x:+0d10,)"),
        ("((x):(y))", "(x:y)"),
        ("{,a->b,}", "{a:b}"),
        ("{a,b->c,(d:e)}", "{a,b:c,(d:e)}"),
        ("(x,)", "(x,)"),
        ("(x , y , )", "(x,y)"),
        ("()", "()"),
        ("{,,}", "{}"),
        ("(::a : ::b)", "(::a:::b)"),
        ("- 1 / 2 * 3 ^ - 4", "-1/2*3^-4"),
        ("0xy AAAA_BBBB", "0xyAAAABBBB"),
        ("\"a_ b\" `c` \"\\\\n\"", "\"a_ b\"\"\\\\n\""),
        ("a_b", "a_b"),
        ("Set", "\"Set\""),
        ("(Array->5)", "(\"Array\":5)"),
        ("(,Array:5)", "(\"Array\":5,)"),
        ("::Set::a", "::\"Set\"::a"),
        ("((Bag),x)", "(\"Bag\",x)"),
    ] {
        has_form(1, text, form);
        has_form(2, text, form);
    }
}

#[test]
fn forms_of_level_2() {
    for (text, form) in [
        ("[ 1 <=*< 2 ]", "[1<=*<2]"),
        ("[ *< - 5 ]", "[*<-5]"),
        ("[ ]", "[]"),
        ("(Set:{ , a : 0bTRUE , })", "(Set:{a:0bTRUE})"),
        ("(Array:{Array:2})", "(Array:{\"Array\":2})"),
        ("( Bag : { } )", "(Bag:{})"),
    ] {
        has_form(2, text, form);
        let answer = written(1, text.as_bytes(), &[], 0).0;
        assert_eq!(answer, refused(Refusal::NewerForm, 0, 0));
    }
}

/// The reader's, whatever table and buffer are.
#[test]
fn every_refusal_of_the_reader() {
    for (level, text, answer) in [
        (0, b"5".to_vec(), refused(Refusal::Level, 0, 0)),
        (3, b"5".to_vec(), refused(Refusal::Level, 0, 0)),
        (
            2,
            vec![b' '; muon::TEXT_MAX + 1],
            refused(Refusal::TooLong, 0, 0),
        ),
        (2, b"ab\xFF".to_vec(), refused(Refusal::NotUtf8, 2, 0)),
        (2, b"\"a".to_vec(), refused(Refusal::NoToken, 0, 0)),
        (2, b" 1/0".to_vec(), refused(Refusal::BadValue, 1, 0)),
        (
            1,
            br#"(x:"a" "\\<0cxD800>")"#.to_vec(),
            refused(Refusal::BadValue, 9, 0),
        ),
        (2, b"(x".to_vec(), refused(Refusal::WrongPlace, 2, 0)),
        (2, vec![], refused(Refusal::WrongPlace, 0, 0)),
        (1, b" [5]".to_vec(), refused(Refusal::NewerForm, 1, 0)),
        (1, b"{b<-a}".to_vec(), refused(Refusal::RetiredArrow, 2, 0)),
        (
            2,
            b"(x:(b<-$".to_vec(),
            refused(Refusal::RetiredArrow, 5, 0),
        ),
        (2, vec![b'{'; 33], refused(Refusal::TooDeep, 32, 0)),
    ] {
        for words in [0, 6, muon::TABLE_MAX] {
            for room in [0, 100] {
                let found = written(level, &text, &vec![0; words], room);
                assert_eq!(found, (answer, vec![]));
            }
        }
        let error = plain::to_vec(level, &text).err();
        assert_eq!(error, answer.accepted_in(&text).err());
    }
}

/// 8 with the nodes, then 14, then 8 with the bytes.
#[test]
fn tables() {
    let text = b"{Set, x}";
    let words = table(2, text);
    for room in [0, 9, 100] {
        for length in [0, 1, 20] {
            let answer = written(2, text, &words[..length], room).0;
            assert_eq!(answer, refused(Refusal::NoRoom, 8, 3));
        }
        for at in 0..words.len() {
            for bits in [1, 1 << 31, u32::MAX] {
                let mut other = words.clone();
                other[at] ^= bits;
                let answer = written(2, text, &other, room).0;
                assert_eq!(answer, refused(Refusal::NotTheFile, 0, 0), "word {at}");
            }
        }
    }
    for more in [1, 6, 7, 8_000] {
        let longer = [&words[..], &vec![77; more]].concat();
        let answer = written(2, text, &longer, 9).0;
        assert_eq!(answer, accepted(8, 9), "{more} words behind");
    }
}

#[test]
fn the_most_nodes_and_one_more() {
    let most = format!("{{{}}}", "a,".repeat(muon::NODES_MAX - 1)).into_bytes();
    let form = plain::to_vec(2, &most).expect("a good text");
    assert_eq!(form.len(), most.len() - 1);
    let more = format!("{{{}}}", "a,".repeat(muon::NODES_MAX)).into_bytes();
    let answer = written(2, &more, &[0; 10_000], 10_000).0;
    assert_eq!(answer, refused(Refusal::NoRoom, 2_050, 1_025));
}

/// What is longer than a text may be is written, and not read again.
#[test]
fn longer_than_a_text() {
    let text = b"::Set".repeat(6_553);
    let form = plain::to_vec(1, &text).expect("a good text");
    assert_eq!(form, b"::\"Set\"".repeat(6_553));
    let again = plain::to_vec(1, &form).map_err(|error| error.refusal);
    assert_eq!(again, Err(Refusal::TooLong));
}
