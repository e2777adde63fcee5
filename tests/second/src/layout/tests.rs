use super::{changed, cut, plainly, relaid, spans, stretches, Kind};
use crate::answer::{NODES_MAX, NODE_WORDS};
use crate::generate::{every, good_texts};
use crate::token::{self, Form, Lexed};
use crate::{front, samples, tree};
use std::ops::Range;

fn accepted(text: &[u8]) -> bool {
    let mut table = [0; NODES_MAX * NODE_WORDS];
    tree::read(2, text, &mut table).number == 0
}

/// Both ways, since neither of two texts comes first.
fn both_ways(text: &[u8], other: &[u8]) -> bool {
    let related = relaid(text, other);
    assert_eq!(related, relaid(other, text), "{}", other.escape_ascii());
    related
}

fn all_are(want: bool, pairs: &[(&[u8], &[u8])]) {
    for (text, other) in pairs {
        let found = both_ways(text, other);
        assert_eq!(found, want, "{}", other.escape_ascii());
    }
}

fn kinds(text: &[u8]) -> Option<String> {
    let letter = |kind| match kind {
        Kind::Byte => 'b',
        Kind::Quotes => 'q',
        Kind::Space => 's',
    };
    cut(text).map(|pieces| pieces.iter().map(|piece| letter(piece.kind)).collect())
}

#[test]
fn bytes_whole_quotes_and_full_stretches() {
    let cuts: [(&[u8], &str); 10] = [
        (b"", ""),
        (b"1 2", "bsb"),
        (b" `a` ``\n\"b c\"\t", "sqs"),
        (b"\"\"\"`\"", "qq"),
        (b"`\"`\"`\"", "sq"),
        (b"x\xC3\xA9\0", "bbbb"),
        (b"\xEF\xBB\xBF 5", "sb"),
        (b"#!` \"\n 5", "sb"),
        (b"#! `", ""),
        (b" #!`x`\n", "sbbs"),
    ];
    for (text, pieces) in cuts {
        assert_eq!(
            kinds(text).as_deref(),
            Some(pieces),
            "{}",
            text.escape_ascii()
        );
    }
}

#[test]
fn no_cut_where_a_partner_is_lacking() {
    for text in [
        &b"`"[..],
        b"1 `",
        b"1`2`3`",
        b"\"",
        b"\"a\"\"",
        b"5 `a` \"`\"`",
    ] {
        assert_eq!(cut(text), None, "{}", text.escape_ascii());
        assert!(!both_ways(text, text));
        assert!(!both_ways(text, b"5"));
    }
}

#[test]
fn related() {
    let pairs: [(&[u8], &[u8]); 8] = [
        (b"", b""),
        (b"1 2", b"1`c`2"),
        (b"1 2", b"1\t\n`\"``(`\r2"),
        (b" 5", b"`#!\n` 5"),
        (b"\"a\" \"b\"", b"\"a\"`\"`\"b\""),
        (b"#!x\n 5", b"#!x\n\n\n5"),
        (
            b"\xEF\xBB\xBF#!\n`a`5 ",
            b"\xEF\xBB\xBF#!\n 5`\xF0\x9F\x98\x80`",
        ),
        (b"1 2", b"1`\xFF`2"),
    ];
    all_are(true, &pairs);
}

#[test]
fn not_related() {
    let pairs: [(&[u8], &[u8]); 16] = [
        (b"12", b"1 2"),
        (b"1 2", b"1 3"),
        (b"1 2", b"1 2 "),
        (b"5", b"`c`5"),
        (b"\"a b\"", b"\"a  b\""),
        (b"\"a b\"", b"\"a\tb\""),
        (b"\"a\"\"b\"", b"\"a\" \"b\""),
        (b"1 2", b"1`2"),
        (b"1 \"2\"", b"1`\"2\""),
        (b"1 2", b"1\x0B2"),
        (b"#!x\n5", b"#!y\n5"),
        (b"#!x\n5", b"#!x \n5"),
        (b"#!x\n5", b"#!x\n 5"),
        (b"#!x\n5", b"#!\nx\n5"),
        (b"5", b"\xEF\xBB\xBF5"),
        (b"\xEF\xBB\xBF 5", b" \xEF\xBB\xBF5"),
    ];
    all_are(false, &pairs);
}

#[test]
fn changes_in_their_order() {
    let text = b" 1 \"a b\"`c`";
    assert_eq!(stretches(text), [0..1, 2..3, 8..11]);
    assert_eq!(spans(text, Kind::Quotes).first(), Some(&(3..8)));
    let changes = [(0..1, b"``".to_vec()), (8..11, b"\n\n".to_vec())];
    assert_eq!(changed(text, &changes), b"``1 \"a b\"\n\n");
    assert_eq!(changed(text, &[]), text);
    assert_eq!(plainly(text), b" 1 \"a b\" ");
    assert_eq!(plainly(b"1 \n ` `` 2"), b"1 \n ` `` 2");
}

/// Of all short texts of bytes that matter.
#[test]
fn related_exactly_if_alike_with_single_blanks() {
    let texts: Vec<Vec<u8>> = (0..=4)
        .flat_map(|length| every(b"1 \n`\"#!", length))
        .filter(|text| cut(text).is_some())
        .collect();
    let plain: Vec<Vec<u8>> = texts.iter().map(|text| plainly(text)).collect();
    let mut pairs = 0;
    for (text, one) in texts.iter().zip(&plain) {
        for (other, another) in texts.iter().zip(&plain) {
            assert_eq!(
                relaid(text, other),
                one == another,
                "{}",
                other.escape_ascii()
            );
            pairs += usize::from(one == another);
        }
    }
    assert!(pairs > 2 * texts.len(), "{pairs}");
}

/// What stands before, between and behind the tokens, where anything does.
fn between(text: &[u8]) -> Vec<Range<usize>> {
    let mut place = front::begin(text);
    let mut gaps = Vec::new();
    for found in token::list(text, place) {
        gaps.push(place..found.first());
        if let Lexed::Token(token) = found {
            place = token.end;
        }
    }
    gaps.retain(|gap| !gap.is_empty());
    gaps
}

/// The kind of the token that a span is in.
fn holder(text: &[u8], span: &Range<usize>) -> Option<token::Kind> {
    let tokens = token::list(text, front::begin(text)).into_iter();
    let mut holders = tokens.filter_map(|found| match found {
        Lexed::Token(token) => {
            let holds = token.first <= span.start && span.end <= token.end;
            holds.then_some(token.kind)
        }
        _ => None,
    });
    holders.next()
}

/// The cut knows no tokens, and yet: what stands between two is a stretch, any
/// other stretch is inside a literal, and quotes are in quoted texts.
#[test]
fn the_cut_of_an_accepted_text_keeps_to_its_tokens() {
    let samples = samples::all().into_iter();
    let samples = samples.map(|sample| sample.text.to_vec());
    let good = good_texts(31, 4_000).into_iter().map(|made| made.text);
    let (mut within, mut quoted) = (0, 0);
    for text in samples.chain(good).filter(|text| accepted(text)) {
        let shown = text.escape_ascii();
        let apart = |stretch: &Range<usize>| holder(&text, stretch).is_none();
        let (outer, inner): (Vec<_>, Vec<_>) = stretches(&text).into_iter().partition(apart);
        assert_eq!(outer, between(&text), "{shown}");
        within += inner.len();
        for quotes in spans(&text, Kind::Quotes) {
            let kind = holder(&text, &quotes);
            assert_eq!(kind, Some(token::Kind::Text(Form::Quoted)), "{shown}");
            quoted += 1;
        }
    }
    assert!(within > 2_000 && quoted > 2_000, "{within} {quoted}");
}
