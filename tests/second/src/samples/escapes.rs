//! Texts with an escape that is out of range, beside those of the readings, each
//! with its answers.

use super::{both, each, no, ok, retired, Sample};

pub const EXAMPLES: &[Sample] = &[
    // which segment
    both(br#""\a\<0cxD800>""#, no(5, 3)),
    both(br#""a" "\\<0cxD800>""#, no(5, 6)),
    both(br#""\\<0cxD800>" "a""#, no(5, 2)),
    both(br#""""\""\\<0cxD800>""#, no(5, 7)),
    both(
        b"\"a\"\n\"\\b\"`\"\\\\<0cxDFFF>\"`\t\"\\\\<0cxD800>\"",
        no(5, 26),
    ),
    // which escape
    both(br#""\\<0cxD800>\<0cxDFFF>""#, no(5, 2)),
    both(br#""\\<0c65>\<0cxD800>\<0cxDFFF>""#, no(5, 9)),
    both(br#""\\q\g\b\t\n\r\<0cxD800>""#, no(5, 14)),
    both(br#""\\<0cxDFFF>" "\\<0cxD800>""#, no(5, 2)),
    both(br#""\\<0cxE000>" "\\<0cxDFFF>" "\\<0cxD800>""#, no(5, 16)),
    // in a segment that is not escaped a backslash is itself; the first one of
    // an escaped segment is no escape
    both(br#""a\<0cxD800>""#, ok(&[[7, 0, 13, 0, 1]])),
    both(br#""a\<0cxD800>" "\\<0cxD800>""#, no(5, 16)),
    both(br#""a\\<0cxD800>" "\b\<0cxD800>""#, no(5, 18)),
    both(br#""\<0cxD800>" "\\<0cxD800>""#, no(5, 15)),
    both(br#""\<0cxD800>\<0cxDFFF>""#, no(5, 11)),
    both("\"é\" \"\\サ\\<0cxD800>\"".as_bytes(), no(5, 10)),
    // how the number is written, and which ones are out of range
    both(
        br#""\\<0cxD7FF>\<0cxE000>\<0cx10FFFF>""#,
        ok(&[[7, 0, 35, 0, 1]]),
    ),
    both(br#""\\<0cxDFFF>""#, no(5, 2)),
    both(br#""\\<0cx110000>""#, no(5, 2)),
    both(br#""\\<0c55296>""#, no(5, 2)),
    both(br#""\\<0cd1114112>""#, no(5, 2)),
    both(br#""\\<0co154000>""#, no(5, 2)),
    both(br#""\\<0cb1101100000000000>""#, no(5, 2)),
    both(br#""\\<0c00065>\<0cx0000D800>""#, no(5, 12)),
    both(br#""\\<0cx10000000000000041>""#, no(5, 2)),
    both(
        br#""\\<0c99999999999999999999999999999999999999999>""#,
        no(5, 2),
    ),
    // a broken segment is none of the literal's; the literal before it is
    // judged first
    both(br#""a" "\\<0cxD800>"#, no(4, 4)),
    both(br#""a" "\\<0cxD800>\x""#, no(4, 4)),
    both(br#""\\<0cxD800>\x""#, no(4, 0)),
    both(br#""\\<0cxD800>\<0cxDFFF""#, no(4, 0)),
    both(br#""\\<0cxD800>" "\\x""#, no(5, 2)),
    both(br#""\\<0cxD800>" "\\<0cxDFFF>"#, no(5, 2)),
    both(b"\"a\" \"\\\\<0cxD800>\" \"`\"", no(5, 6)),
    // where a name, a member, a count may stand
    both(br#"("\\<0cxD800>":1,)"#, no(5, 3)),
    both(br#"(a,"b" "\\<0cxD800>":1)"#, no(5, 9)),
    both(br#"(a:"\\<0cxD800>",b:"\\<0cxDFFF>")"#, no(5, 5)),
    both(br#"::"\\<0cxD800>""#, no(5, 4)),
    both(br#"::a::"b" "\\<0cxD800>"::0cxD800"#, no(5, 11)),
    both(br#"(::"\\<0cxD800>":1,)"#, no(5, 5)),
    both(br#"{a,"\\<0cxD800>"}"#, no(5, 5)),
    both(br#"{"a":"\\<0cxD800>"}"#, no(5, 7)),
    both(br#"{"a"->"\\<0cxD800>"}"#, no(5, 8)),
    each(br#"(Array:{"\\<0cxD800>":2})"#, no(7, 0), no(5, 10)),
    each(br#"(Set:{a,"\\<0cxD800>"})"#, no(7, 0), no(5, 10)),
    each(br#"(Bag:{a:"\\<0cxD800>"})"#, no(7, 0), no(6, 8)),
    each(br#"["\\<0cxD800>"]"#, no(7, 0), no(5, 3)),
    each(br#"[1.."\\<0cxD800>"]"#, no(7, 0), no(5, 6)),
    // 4, 6, 15 and 7 come first, and earlier tokens
    both(br#"{a "\\<0cxD800>"}"#, no(6, 3)),
    both(br#"{"a" "\\<0cxD800>" b}"#, no(5, 7)),
    both(br#"$ "\\<0cxD800>""#, no(4, 0)),
    both(br#"(1/0,"\\<0cxD800>")"#, no(5, 1)),
    both(br#"("\\<0cxD800>",1/0)"#, no(5, 3)),
    both(br#"(0L,"\\<0cxD800>")"#, no(7, 1)),
    both(br#"("\\<0cxD800>",0L)"#, no(5, 3)),
    retired(br#"(a<-"\\<0cxD800>")"#, 2, no(5, 6)),
    both(br#"("\\<0cxD800>"<-a)"#, no(5, 3)),
    // what is not in quotes, and what stands before the text
    both(b"0cxD800", no(5, 0)),
    both(b"(0cxD800:1,)", no(5, 1)),
    both(br#"{"a" : 0cxD800}"#, no(5, 7)),
    both(
        b"\xEF\xBB\xBF#!\"\\\\<0cxD800>\"\n \"\\\\<0cxD800>\"",
        no(5, 22),
    ),
    both(b"`\"\\\\<0cxD800>\"`\"\\\\<0cxDFFF>\"", no(5, 17)),
];
