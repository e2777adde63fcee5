use super::{list, next, Lexed};
use crate::generate::long_texts;
use std::time::{Duration, Instant};

/// The words of all tokens from place 0.
fn words(text: &[u8]) -> Vec<[u64; 5]> {
    list(text, 0).iter().map(Lexed::words).collect()
}

#[test]
fn kinds_and_details() {
    assert_eq!(words(b"0sIGNORANCE"), [[1, 0, 11, 0, 0], [0, 11, 11, 0, 0]]);
    assert_eq!(words(b" 0bFALSE")[0], [2, 1, 8, 0, 0]);
    assert_eq!(words(b"0bTRUE")[0], [2, 0, 6, 1, 0]);
    assert_eq!(words(b"5")[0], [3, 0, 1, 0, 0]);
    assert_eq!(words(b"- 5")[0], [3, 0, 3, 1, 0]);
    assert_eq!(words(b"1 . 5 * 1 ^ - 3 ")[0], [4, 0, 15, 0, 1]);
    assert_eq!(words(b"0bb 1_0")[0], [5, 0, 7, 0, 0]);
    assert_eq!(words(b"0xy=AAA")[0], [6, 0, 7, 0, 1]);
    assert_eq!(words(b"\"a\" \"b\"")[0], [7, 0, 7, 1, 0]);
    assert_eq!(words(b"_a9")[0], [7, 0, 3, 2, 0]);
    assert_eq!(words(b"0cxD800")[0], [7, 0, 7, 3, 1]);
    assert_eq!(words(b"0Lct")[0], [8, 0, 2, 0, 0]);
    assert_eq!(words(b"$"), [[10, 0, 0, 0, 0]]);
}

#[test]
fn head_words_have_numbers_from_4_to_16() {
    let heads = "Array Set Bag Mix Interval_Set Interval_Bag Tuple_Array Relation \
                 Tuple_Bag Article Excuse Heading Renaming";
    for (index, head) in heads.split_whitespace().enumerate() {
        let length = head.len() as u64;
        let want = [7, 0, length, 4 + index as u64, 0];
        assert_eq!(next(head.as_bytes(), 0).words(), want);
        let quoted = format!("\"{head}\"");
        assert_eq!(next(quoted.as_bytes(), 0).words()[3], 1);
        let longer = format!("{head}s");
        assert_eq!(next(longer.as_bytes(), 0).words()[3], 2);
    }
}

#[test]
fn symbols_have_numbers_from_0_to_20() {
    let symbols = "( ) { } [ ] , -> <- .. : :: <=*<= <=*< <*<= <*< <=* <* *<= *< *";
    for (index, symbol) in symbols.split_whitespace().enumerate() {
        let want = [9, 0, symbol.len() as u64, index as u64, 0];
        assert_eq!(next(symbol.as_bytes(), 0).words(), want);
    }
}

#[test]
fn runs_of_colons_are_counted_from_the_place_asked() {
    assert_eq!(next(b":::", 0).words(), [9, 0, 1, 10, 0]);
    assert_eq!(next(b":::", 1).words(), [9, 1, 3, 11, 0]);
    assert_eq!(next(b":::", 2).words(), [9, 2, 3, 10, 0]);
    assert_eq!(next(b"::::", 0), Lexed::NoToken(0));
    assert_eq!(next(b"::::", 1).words(), [9, 1, 2, 10, 0]);
}

#[test]
fn any_bytes_and_any_place() {
    assert_eq!(next(b"x", 1), Lexed::End(1));
    assert_eq!(next(b"x", usize::MAX), Lexed::End(1));
    assert_eq!(next(b"", 0), Lexed::End(0));
    assert_eq!(next(b"\x80", 0), Lexed::NoToken(0));
    assert_eq!(next(b"`\xFF`5", 0).words(), [3, 3, 4, 0, 0]);
    assert_eq!(next(b"\"\xFF\"", 0), Lexed::NoToken(0));
    assert_eq!(next(b"\"\xE2\x82\"", 0), Lexed::NoToken(0));
    assert_eq!(next(b"\"a\" \"\xFF\"", 0).words(), [7, 0, 3, 1, 0]);
}

/// Whole groups of four are the literal, and bad if they are no base 64.
#[test]
fn base_64_with_padding() {
    for text in [
        "0xy",
        "0xyAA==",
        "0xyAAA=",
        "0xyAAAA",
        "0xyAAAAAA==",
        "0xy`=`AAAA_AAA=",
    ] {
        let length = text.len() as u64;
        assert_eq!(words(text.as_bytes())[0], [6, 0, length, 0, 0], "{text}");
    }
    for text in [
        "0xy====",
        "0xyA===",
        "0xyAB==",
        "0xyAAB=",
        "0xyAAA=_====",
        "0xyAA== AAAA",
        "0xyAAAA====",
        "0xyAA==AA==",
    ] {
        let length = text.len() as u64;
        assert_eq!(words(text.as_bytes())[0], [6, 0, length, 0, 1], "{text}");
    }
    // what fills no group is none of the literal's
    assert_eq!(words(b"0xyTWF")[..2], [[6, 0, 3, 0, 0], [7, 3, 6, 2, 0]]);
    assert_eq!(words(b"0xyAAAAA")[..2], [[6, 0, 7, 0, 0], [7, 7, 8, 2, 0]]);
    assert_eq!(words(b"0xyAA=")[..2], [[6, 0, 3, 0, 0], [7, 3, 5, 2, 0]]);
    assert_eq!(words(b"0xy="), [[6, 0, 3, 0, 0], [10, 3, 3, 0, 0]]);
    assert_eq!(words(b"0xyAB===")[0], [6, 0, 7, 0, 1]);
}

/// A bad code point in a segment that is not whole is none of the literal's.
#[test]
fn a_broken_segment_does_not_make_the_literal_bad() {
    let found = words(b"\"a\" \"\\\\<0cxD800>");
    assert_eq!(found, [[7, 0, 3, 1, 0], [10, 4, 4, 0, 0]]);
}

/// Where the bad value of the token at this place is refused.
fn bad_at(text: &[u8], at: usize) -> Option<usize> {
    match next(text, at) {
        Lexed::Token(token) => token.bad,
        Lexed::End(_) | Lexed::NoToken(_) => None,
    }
}

/// In quotes at the backslash of the first escape out of range, counted from the
/// text's front as all places are; else at the literal's first byte.
#[test]
fn where_a_bad_value_is_refused() {
    assert_eq!(bad_at(br#""\\<0cxD800>""#, 0), Some(2));
    assert_eq!(bad_at(br#"(x: "\\<0cxD800>""#, 3), Some(6));
    assert_eq!(
        bad_at(br#""a\<0cxD800>" "\\<0c65>\<0cxD800>\<0cxDFFF>""#, 0),
        Some(23)
    );
    assert_eq!(bad_at(br#""\\<0cxDFFF>" "\\<0cxD800>""#, 0), Some(2));
    assert_eq!(bad_at(br#""a\<0cxD800>""#, 0), None);
    assert_eq!(bad_at(br#""\<0cxD800>""#, 0), None);
    assert_eq!(bad_at(br#""a" "\\<0cxD800>\x""#, 0), None);
    assert_eq!(bad_at(br#""\\<0cxD800>" "\\x""#, 0), Some(2));
    for literal in ["0cxD800", "1/0", "1.0*1^2", "0xyAB=="] {
        let text = format!("::a:: {literal}");
        assert_eq!(bad_at(text.as_bytes(), 5), Some(6), "{literal}");
    }
}

#[test]
fn code_points_at_their_bounds() {
    let bad = |text: &[u8]| next(text, 0).words()[4] == 1;
    assert!(!bad(b"0cxD7FF"));
    assert!(bad(b"0cxD800"));
    assert!(bad(b"0cd57343"));
    assert!(!bad(b"0cxE000"));
    assert!(!bad(b"0cx10FFFF"));
    assert!(bad(b"0cx110000"));
    assert!(bad(b"0c99999999999999999999999999999999999999"));
    assert!(!bad(b"0c00000000000000000000000000000000000000065"));
    assert!(!bad(b"0cb0"));
    assert!(!bad(b"0co777777"));
}

#[test]
fn long_inputs_take_linear_time() {
    for text in long_texts() {
        let start = Instant::now();
        let found = list(&text, 0);
        let shown = String::from_utf8_lossy(&text[..text.len().min(20)]).into_owned();
        // Generous for a busy machine and no optimisation; a quadratic scan of
        // 32 KB takes far longer.
        assert!(start.elapsed() < Duration::from_secs(2), "{shown}");
        assert!(!found.is_empty());
    }
}
