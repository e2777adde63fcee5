use super::{convert, turned, write, Turned};
use crate::answer::{
    Answer, BAD_VALUE, LEVEL, NEWER_FORM, NODES_MAX, NODE_WORDS, NOT_THE_FILE, RETIRED_ARROW,
    TEXT_MAX, TOO_LONG, WRONG_PLACE,
};
use crate::file::STORED_WORDS;
use crate::samples::{self, members, readings};
use crate::tree::{self, Rules};

const FILLED: u8 = 0xA5;

/// The table of an accepted text, exactly as long as its nodes are.
fn table(level: u32, text: &[u8]) -> Option<Vec<u32>> {
    table_by(Rules::Today, level, text)
}

fn table_by(rules: Rules, level: u32, text: &[u8]) -> Option<Vec<u32>> {
    let mut table = vec![0; NODES_MAX * NODE_WORDS];
    let answer = tree::read_by(rules, level, text, &mut table);
    table.truncate(answer.count * NODE_WORDS);
    (answer.number == 0).then_some(table)
}

fn writes(level: u32, text: &[u8], table: &[u32], room: usize) -> (Answer, Vec<u8>) {
    written(|buffer| write(level, text, table, buffer), room)
}

fn converts(level: u32, text: &[u8], room: usize) -> (Answer, Vec<u8>) {
    written(|buffer| convert(level, text, buffer), room)
}

/// What is written to a buffer of so many bytes; those behind it stay.
fn written(call: impl FnOnce(&mut [u8]) -> Answer, room: usize) -> (Answer, Vec<u8>) {
    let mut buffer = vec![FILLED; room];
    let answer = call(&mut buffer);
    let written = if answer.number == 0 { answer.count } else { 0 };
    assert!(buffer[written..].iter().all(|&byte| byte == FILLED));
    buffer.truncate(written);
    (answer, buffer)
}

/// The plain form of a text that has one.
fn plain(level: u32, text: &[u8]) -> Vec<u8> {
    let table = table(level, text).expect("an accepted text");
    let (answer, plain) = writes(level, text, &table, 2 * text.len());
    assert_eq!(answer, Answer::accepted(text.len(), plain.len()));
    plain
}

/// What a text is converted to that is good by the old rules.
fn converted(level: u32, text: &[u8]) -> Vec<u8> {
    let (answer, form) = converts(level, text, 2 * text.len());
    assert_eq!(answer, Answer::accepted(text.len(), form.len()));
    form
}

fn shown(text: &[u8]) -> String {
    text.escape_ascii().to_string()
}

#[test]
fn plain_forms_of_the_readings() {
    for (text, want) in readings::PLAIN {
        assert_eq!(shown(&plain(2, text)), shown(want), "{}", shown(text));
    }
}

/// What the request names, one thing at a time.
#[test]
fn what_is_left_out_and_what_is_kept() {
    for (text, want) in [
        ("\u{FEFF}#!x\n 5 ", "5"),
        ("#!x\n`c`5`c`", "5"),
        ("((((5))))", "5"),
        ("(5:y)", "(5:y)"),
        ("(y->5)", "(y:5)"),
        ("()", "()"),
        ("(,x,)", "(x,)"),
        ("(,x)", "(x,)"),
        ("(x , y , )", "(x,y)"),
        ("( , x:1 , ::a :: b : 2 )", "(x:1,::a::b:2)"),
        ("{ , a , }", "{a}"),
        ("{,}", "{}"),
        ("(Array : { })", "(Array:{})"),
        ("( Bag : { a : 0x 1_F , b } )", "(Bag:{a:0x1F,b})"),
        ("[ ]", "[]"),
        ("[ * ]", "[*]"),
        ("[ - 1 .. + 2 ]", "[-1..+2]"),
        ("[ *< - 5 ]", "[*<-5]"),
        ("[ a <*< - 5 ]", "[a<*<-5]"),
        ("[ *<= b ]", "[*<=b]"),
        ("[ a <=* ]", "[a<=*]"),
        ("[ a <* ]", "[a<*]"),
        ("[ a <*<= b ]", "[a<*<=b]"),
        ("[ a <=*<= b ]", "[a<=*<=b]"),
        ("[ Set ]", "[\"Set\"]"),
        ("0d 0_0 7", "0d007"),
        ("0sIGNORANCE ", "0sIGNORANCE"),
        ("a_b", "a_b"),
        ("0cx41", "0cx41"),
        ("\"\\\" \"\\\\g\" `\"` \"a_ b\"", "\"\\\"\"\\\\g\"\"a_ b\""),
        ("\"Set\"", "\"Set\""),
        ("0bb ", "0bb"),
        ("0bx `_` F_0", "0bxF0"),
        ("0xb 00000001_00000000", "0xb0000000100000000"),
        ("0x F . F_F", "0xF.FF"),
        ("1 / `2` 0b 1_1", "1/0b11"),
        (":: a `c` :: \"b\" \"c\"", "::a::\"b\"\"c\""),
        ("(:: Relation : Heading)", "(::\"Relation\":\"Heading\")"),
        ("((Set):5)", "(\"Set\":5)"),
    ] {
        assert_eq!(shown(&plain(2, text.as_bytes())), shown(want.as_bytes()));
        assert_eq!(
            shown(&converted(2, text.as_bytes())),
            shown(want.as_bytes())
        );
    }
}

#[test]
fn conversions_of_the_readings() {
    for &(text, room, number, place, count, bytes) in readings::CONVERTED {
        let answer = Answer {
            number,
            place,
            count,
        };
        assert_eq!(converts(2, text, room), (answer, bytes.to_vec()));
    }
    for (text, want) in readings::PLAIN {
        assert_eq!(shown(&converted(2, text)), shown(want), "{}", shown(text));
    }
}

/// An arrow is turned by the converter, and refused where a plain form is
/// asked for.
#[test]
fn arrows_are_converted() {
    for (text, place, want) in [
        ("(y<-5)", 2, "(5:y)"),
        ("(a<-(b<-(c<-d)))", 2, "(((d:c):b):a)"),
        ("{a,b<-c,d:e,f<-g,h}", 4, "{a,c:b,d:e,g:f,h}"),
        ("(Set<-5)", 4, "(5:\"Set\")"),
        ("(5<-Set)", 2, "(\"Set\":5)"),
        ("{ b `c` <- ( a ) , }", 8, "{a:b}"),
        ("(::a<-::b)", 4, "(::b:::a)"),
        ("(a<--5)", 2, "(-5:a)"),
    ] {
        let (text, refusal) = (text.as_bytes(), Answer::refused(RETIRED_ARROW, place));
        for level in [1, 2] {
            assert_eq!(shown(&converted(level, text)), shown(want.as_bytes()));
            assert_eq!(writes(level, text, &[7; 60], 60).0, refusal);
            assert_eq!(writes(level, text, &[], 0).0, refusal);
        }
    }
}

/// Those of the reading by the old rules, then the buffer's.
#[test]
fn the_converter_s_refusals() {
    for (level, text, answer) in [
        (0, &b"(b<-a)"[..], Answer::refused(LEVEL, 0)),
        (3, b"(b<-a)", Answer::refused(LEVEL, 0)),
        (2, &[b' '; TEXT_MAX + 1], Answer::refused(TOO_LONG, 0)),
        (2, b"(b<-", Answer::refused(WRONG_PLACE, 4)),
        (2, b"(,b<-a)", Answer::refused(WRONG_PLACE, 3)),
        (1, b"(b<-[5])", Answer::refused(NEWER_FORM, 4)),
    ] {
        for room in [0, 100] {
            assert_eq!(converts(level, text, room), (answer, vec![]));
        }
    }
    let want = Answer::no_room(6, 5);
    for room in [0, 4] {
        assert_eq!(converts(2, b"(b<-a)", room), (want, vec![]));
    }
    assert_eq!(converts(2, b"(b<-a)", 5).0, Answer::accepted(6, 5));
    for (pairs, answer) in [(512, (2_562, 1_025)), (600, (3_002, 1_201))] {
        let text = format!("{{{}}}", "b<-a,".repeat(pairs)).into_bytes();
        let (place, nodes) = answer;
        assert_eq!(converts(2, &text, 10_000).0, Answer::no_room(place, nodes));
        assert_eq!(converts(1, &text, 0).0, Answer::no_room(place, nodes));
    }
    let most = format!("{{{}c}}", "b<-a,".repeat(511)).into_bytes();
    assert_eq!(converted(1, &most).len(), 2 + 4 * 511 + 1);
}

/// The reader's place is handed on, and by the converter the place by the old
/// rules.
#[test]
fn an_escape_out_of_range() {
    for (text, today, old) in [
        (&br#"(x:"a" "\\<0cxD800>")"#[..], (BAD_VALUE, 9), 9),
        (br#"("\\<0cxD800>"<-a)"#, (BAD_VALUE, 3), 3),
        (br#"(a<-"\\<0cxD800>")"#, (RETIRED_ARROW, 2), 6),
    ] {
        for (level, room) in [(1, 0), (2, 100)] {
            let answer = Answer::refused(today.0, today.1);
            assert_eq!(writes(level, text, &[7; 60], room), (answer, vec![]));
            let answer = Answer::refused(BAD_VALUE, old);
            assert_eq!(converts(level, text, room), (answer, vec![]));
        }
    }
}

/// The table is looked at after the text, and the buffer after the table.
#[test]
fn the_order_of_the_refusals() {
    let whole = table(2, b"(x:y)").expect("a good text");
    let of = |table: &[u32], room| writes(2, b"(x:y)", table, room).0;
    assert_eq!(of(&whole, 5), Answer::accepted(5, 5));
    for room in [0, 4] {
        assert_eq!(of(&whole, room), Answer::no_room(5, 5));
        assert_eq!(of(&whole[..20], room), Answer::no_room(5, 3));
        assert_eq!(of(&[], room), Answer::no_room(5, 3));
        assert_eq!(of(&[9; 21], room), Answer::refused(NOT_THE_FILE, 0));
    }
    for at in 0..whole.len() {
        let mut other = whole.clone();
        other[at] ^= 1;
        assert_eq!(of(&other, 5), Answer::refused(NOT_THE_FILE, 0), "word {at}");
    }
    let behind = [&whole[..], &[77; 9]].concat();
    assert_eq!(of(&behind, 5), Answer::accepted(5, 5));
    for (level, text, refusal) in [
        (0, &b"5"[..], Answer::refused(LEVEL, 0)),
        (3, b"5", Answer::refused(LEVEL, 0)),
        (2, b"(x", Answer::refused(WRONG_PLACE, 2)),
        (1, b" [5]", Answer::refused(NEWER_FORM, 1)),
        (2, &[b' '; TEXT_MAX + 1], Answer::refused(TOO_LONG, 0)),
    ] {
        assert_eq!(writes(level, text, &[], 0).0, refusal);
        assert_eq!(writes(level, text, &[7; 60], 60).0, refusal);
    }
    let most = members(2 * NODES_MAX + 2);
    assert_eq!(
        writes(2, &most, &[0; 10_000], 0).0,
        Answer::no_room(most.len(), 1_025)
    );
}

/// R7.2: it is judged as a table of seven words a node.
#[test]
fn a_table_of_six_words_a_node() {
    let whole = table(2, b"(x:y)").expect("a good text");
    let before: Vec<u32> = whole
        .chunks(NODE_WORDS)
        .flat_map(|node| node[..STORED_WORDS].to_vec())
        .collect();
    let of = |table: &[u32]| writes(2, b"(x:y)", table, 5).0;
    assert_eq!((before.len(), of(&before)), (18, Answer::no_room(5, 3)));
    let longer = [&before[..], &[0; 3]].concat();
    assert_eq!(of(&longer), Answer::refused(NOT_THE_FILE, 0));
}

/// R5.5: the buffer alone is asked whether the plain form fits.
#[test]
fn longer_than_a_text_may_be() {
    let text = b"::Set".repeat(6_553);
    assert_eq!((text.len(), plain(2, &text).len()), (32_765, 45_871));
}

/// Reading the plain form by today's rules gives the nodes that the old ones
/// give for the text, and writing or converting it the same bytes.
#[test]
fn read_and_written_again() {
    let mut turns = 0;
    for sample in samples::all() {
        for level in [1, 2] {
            let Some(before) = table_by(Rules::Old, level, sample.text) else {
                continue;
            };
            let form = converted(level, sample.text);
            let after = table(level, &form).expect("a plain form is accepted");
            assert_eq!(turned(&before).0, turned(&after).0, "{}", shown(&form));
            assert!(turned(&after).1.windows(2).all(|pair| pair[0] < pair[1]));
            assert_eq!(shown(&plain(level, &form)), shown(&form));
            assert_eq!(shown(&converted(level, &form)), shown(&form));
            match table(level, sample.text) {
                Some(_) => assert_eq!(shown(&plain(level, sample.text)), shown(&form)),
                None => turns += 1,
            }
        }
    }
    assert!(turns > 0);
}

#[test]
fn turned_nodes() {
    let node = |kind, parent, role, skip| Turned {
        kind,
        parent,
        role,
        detail: 0,
        skip,
    };
    let words = table_by(Rules::Old, 2, b"{\"b\"<-(1,),c<-d}").expect("a good text");
    let want = [
        node(11, 0, 0, 6),
        node(10, 0, 1, 3),
        node(3, 1, 5, 3),
        node(7, 0, 2, 4),
        node(7, 0, 1, 5),
        node(7, 0, 2, 6),
    ];
    assert_eq!(turned(&words), (want.to_vec(), vec![0, 2, 3, 1, 5, 4]));
}
