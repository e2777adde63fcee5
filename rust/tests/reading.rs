//! What a caller of the package meets: answers, tables, nodes.

use muon::{Answer, IntervalForm, Kind, Node, Refusal, Role};

const FILLED: u32 = 0xA5A5_A5A5;

/// The answer and the nodes at a level, with room enough.
fn nodes(level: u32, text: &[u8]) -> (Answer, Vec<Node>) {
    let mut table = vec![FILLED; muon::TABLE_MAX];
    let answer = muon::read(level, text, &mut table);
    let written = match answer.is_accepted() {
        true => answer.count * muon::NODE_WORDS,
        false => 0,
    };
    assert!(table[written..].iter().all(|word| *word == FILLED));
    (
        answer,
        muon::nodes(&table[..written], answer.count).collect(),
    )
}

fn refused(level: u32, text: &[u8]) -> (Option<Refusal>, usize) {
    let (answer, _) = nodes(level, text);
    (answer.refusal(), answer.place)
}

#[test]
fn a_pair() {
    let (answer, nodes) = nodes(2, b"(x:y)");
    assert_eq!(answer.accepted(), Ok(3));
    assert_eq!(answer.place, 5);
    let words = [
        [9, 0, 5, 0, 0, 0, 3],
        [7, 1, 2, 0, 1, 2, 2],
        [7, 3, 4, 0, 2, 2, 3],
    ];
    assert_eq!(nodes, words.map(Node::from));
}

#[test]
fn a_group_makes_no_node() {
    let (_, nodes) = nodes(1, b"((x))");
    assert_eq!(nodes.len(), 1);
    assert_eq!(nodes[0].span(), 2..3);
    assert_eq!(nodes[0].role, Role::Root.number());
}

#[test]
fn an_interval() {
    assert_eq!(refused(1, b"[1..10]"), (Some(Refusal::NewerForm), 0));
    let (_, nodes) = nodes(2, b"[1..10]");
    assert_eq!(
        (nodes[0].kind, nodes[0].detail),
        (Kind::Interval.number(), IntervalForm::Dots.number())
    );
    let roles = [Role::Low, Role::High].map(Role::number);
    assert_eq!([nodes[1].role, nodes[2].role], roles);
}

#[test]
fn every_refusal_of_a_reading() {
    for (level, text, refusal, place) in [
        (0, b"5".to_vec(), Refusal::Level, 0),
        (u32::MAX, b"5".to_vec(), Refusal::Level, 0),
        (2, vec![b' '; muon::TEXT_MAX + 1], Refusal::TooLong, 0),
        (2, b"ab\xFF".to_vec(), Refusal::NotUtf8, 2),
        (2, b"\"a".to_vec(), Refusal::NoToken, 0),
        (2, b" 1/0".to_vec(), Refusal::BadValue, 1),
        (2, b"(a,,b)".to_vec(), Refusal::WrongPlace, 3),
        (2, vec![], Refusal::WrongPlace, 0),
        (1, b"(Set:{7,7})".to_vec(), Refusal::NewerForm, 0),
        (2, vec![b'{'; 33], Refusal::TooDeep, 32),
        (1, b"{a,b<-c}".to_vec(), Refusal::RetiredArrow, 4),
        (2, b"(a<-$".to_vec(), Refusal::RetiredArrow, 2),
    ] {
        assert_eq!(refused(level, &text), (Some(refusal), place), "{refusal}");
    }
}

/// The arrow `<-` is retired only where it was allowed, and behind what was
/// refused before it.
#[test]
fn arrows_that_are_refused_otherwise() {
    for (text, refusal, place) in [
        (&b"<-"[..], Refusal::WrongPlace, 0),
        (b"(<-a)", Refusal::WrongPlace, 1),
        (b"(,a<-b)", Refusal::WrongPlace, 3),
        (b"(a:b<-c)", Refusal::WrongPlace, 4),
        (b"(0L<-5)", Refusal::NewerForm, 1),
        (b"(1/0<-b)", Refusal::BadValue, 1),
        (b"($<-b)", Refusal::NoToken, 1),
    ] {
        for level in [1, 2] {
            assert_eq!(refused(level, text), (Some(refusal), place), "{refusal}");
        }
    }
}

/// For a code point in quotes the backslash of its escape, the first such one;
/// the literal is judged where it begins.
#[test]
fn the_place_of_a_bad_value() {
    for (text, refusal, place) in [
        (&br#""\\<0cxD800>""#[..], Refusal::BadValue, 2),
        (
            br#""a" "\b\<0c65>\<0cxD800>\<0cxDFFF>""#,
            Refusal::BadValue,
            14,
        ),
        (br#"(x:"\\<0cx110000>")"#, Refusal::BadValue, 5),
        (br#"("\\<0cxD800>":1,)"#, Refusal::BadValue, 3),
        (br#"::a::"b" "\\<0cxD800>""#, Refusal::BadValue, 11),
        (br#"{"a\<0cxD800>" "\\<0cxD800>"}"#, Refusal::BadValue, 17),
        (br#""\\<0cxD800>" "unclosed"#, Refusal::BadValue, 2),
        (br#"x "\\<0cxD800>""#, Refusal::WrongPlace, 2),
        (b"::a::0cxD800", Refusal::BadValue, 5),
        (b"{0xyAB==}", Refusal::BadValue, 1),
        (b"(1/0:a)", Refusal::BadValue, 1),
    ] {
        for level in [1, 2] {
            assert_eq!(refused(level, text), (Some(refusal), place), "{refusal}");
        }
    }
}

#[test]
fn no_room_tells_the_need() {
    let mut table = [FILLED; 20];
    let answer = muon::read(2, b"(x:y)", &mut table);
    assert_eq!(answer.refusal(), Some(Refusal::NoRoom));
    assert_eq!((answer.place, answer.count), (5, 3));
    assert_eq!(table, [FILLED; 20]);
    assert_eq!(muon::read(2, b"(x:y)", &mut [0; 21]).accepted(), Ok(3));
}

#[test]
fn nodes_of_a_short_table() {
    assert_eq!(muon::nodes(&[1; 20], 5).len(), 2);
    assert_eq!(muon::nodes(&[], usize::MAX).count(), 0);
    assert_eq!(muon::nodes(&[1; 21], 1).count(), 1);
}
