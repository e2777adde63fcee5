//! The settled readings, sections A to D and R1 to R9, transcribed example by
//! example; where a request changes an answer of before, the new one.

use super::{both, count, each, lacks, no, ok, retired, Sample, Want};

pub const EXAMPLES: &[(&str, &[Sample])] = &[
    (
        "docs/DECISIONS.md",
        &[
            both(b"1 0L", no(6, 3)),
            both(b"\"a\" \"\\<0cxD800>", no(4, 4)),
        ],
    ),
    (
        "A1",
        &[
            each(
                b"(Array:{a:20})",
                no(7, 0),
                ok(&[[12, 0, 14, 0, 0], [7, 8, 9, 5, 2], [3, 10, 12, 6, 0]]),
            ),
            each(
                b"(Set:{a})",
                no(7, 0),
                ok(&[[13, 0, 9, 0, 0], [7, 6, 7, 5, 2]]),
            ),
        ],
    ),
    (
        "A2",
        &[
            both(b" 5", ok(&[[3, 1, 2, 0, 0]])),
            both(b"- 5", ok(&[[3, 0, 3, 0, 0]])),
            both(b"( 5)", ok(&[[3, 2, 3, 0, 0]])),
        ],
    ),
    (
        "A3",
        &[
            both(b"0bb ", ok(&[[5, 0, 3, 0, 0]])),
            both(
                b"{0bb , 0xx }",
                ok(&[[11, 0, 12, 0, 0], [5, 1, 4, 1, 0], [6, 7, 10, 1, 0]]),
            ),
            both(b"0xy`c`", ok(&[[6, 0, 3, 0, 0]])),
        ],
    ),
    (
        "A4",
        &[
            both(b"0xb1010101", no(6, 3)),
            both(b"0xb10101010 1010", no(6, 12)),
            both(b"0xb1010_1010", no(6, 3)),
            both(b"0xxA", no(6, 3)),
            both(b"0xxA7_0", no(6, 5)),
            both(b"0xyTWF", no(6, 3)),
            both(b"0xyAAAAA", no(6, 7)),
            both(b"0xb", ok(&[[6, 0, 3, 0, 0]])),
        ],
    ),
    (
        "A5",
        &[
            both(b"0xyAAAA word", ok(&[[6, 0, 12, 0, 0]])),
            both(b"0xyAAAA words", no(6, 12)),
            both(b"0xyTRUE", ok(&[[6, 0, 7, 0, 0]])),
            both(b"{0xy 1/2+}", ok(&[[11, 0, 10, 0, 0], [6, 1, 9, 1, 0]])),
            both(b"0xyAAAA_BBBB", ok(&[[6, 0, 12, 0, 0]])),
            both(b"0xyAAAA_BBB", no(6, 7)),
        ],
    ),
    (
        "A6",
        &[
            both(b"1..10", no(6, 1)),
            each(
                b"[1..10]",
                no(7, 0),
                ok(&[[15, 0, 7, 0, 11], [3, 1, 2, 7, 0], [3, 4, 6, 8, 0]]),
            ),
            each(b"[1...10]", no(7, 0), no(4, 4)),
            each(b"[1. .10]", no(7, 0), no(4, 2)),
            each(
                b"[1 .5]",
                no(7, 0),
                ok(&[[15, 0, 6, 0, 1], [4, 1, 5, 9, 0]]),
            ),
            both(b"1.", no(4, 1)),
            both(b"1/", no(4, 1)),
            both(b"1/-2", no(4, 1)),
            both(b"1/x", no(4, 1)),
            both(b"1.5*2", no(6, 3)),
            both(b"1.5*2^", no(6, 3)),
            both(b"1.5*2^x", no(6, 3)),
            both(b"1.5*-2^3", no(6, 3)),
            each(b"[1.5*<5]", no(7, 0), no(6, 4)),
            each(
                b"[1.5<*<5]",
                no(7, 0),
                ok(&[[15, 0, 9, 0, 5], [4, 1, 4, 7, 0], [3, 7, 8, 8, 0]]),
            ),
            both(b"1.5.5", no(4, 3)),
            both(b"1/2/3", no(4, 3)),
            both(b"1/2.5", no(4, 3)),
            both(b"1.5/2", no(4, 3)),
            both(b"5_", no(6, 1)),
            both(b"5_x", no(6, 1)),
            both(b"5__5", no(6, 1)),
            both(b"1_ 0", no(6, 1)),
            both(b"1 _0", no(6, 2)),
        ],
    ),
    (
        "A7",
        &[
            both(b"5*2^3", no(6, 1)),
            both(b"5.0*2^3", ok(&[[4, 0, 7, 0, 0]])),
            both(b"5/1*2^3", ok(&[[4, 0, 7, 0, 0]])),
        ],
    ),
    (
        "A8",
        &[
            both(b"0b2", no(6, 1)),
            both(b"0x", no(6, 1)),
            both(b"0xG", no(6, 1)),
            both(b"0d", no(6, 1)),
            both(b"0c", no(6, 1)),
            both(b"0cb2", no(6, 1)),
            both(b"0cxf", no(6, 1)),
            both(b"0sIGNORANC", no(6, 1)),
            both(b"0bTRU", no(6, 1)),
            both(b"0b TRUE", no(6, 1)),
            both(b"1/0xG", no(5, 0)),
            both(b"1/0b2", no(5, 0)),
            both(b"1/0xb10101010", no(5, 0)),
            both(b"-0bb1", no(6, 2)),
            both(b"-0xx", no(6, 2)),
            both(b"-0c5", no(6, 2)),
        ],
    ),
    (
        "A9",
        &[
            both(b"0bTRUEx", no(6, 6)),
            both(b"0bTRUE5", no(6, 6)),
            both(b"5x", no(6, 1)),
            both(b"0sIGNORANCEx", no(6, 11)),
            both(b"0c5_5", no(6, 3)),
            both(b"0c5x", no(6, 3)),
            both(b"0b12", no(6, 3)),
            both(b"0xFg", no(6, 3)),
            both(b"\"a\"b", no(6, 3)),
        ],
    ),
    (
        "A10",
        &[
            both(b"0L", no(7, 0)),
            both(b"0Lct", no(7, 0)),
            both(b"0L$", no(7, 0)),
            both(b"{1 0Lct}", no(6, 4)),
            both(b"{1_0L}", no(6, 4)),
            both(b"10L", no(6, 2)),
            both(b"-0L", no(6, 2)),
            both(b"{x 0L}", no(6, 3)),
            both(b"{\"a\" 0L}", no(6, 5)),
            both(b"{0x1 0L}", no(6, 6)),
            both(b"{0b1 0L}", no(6, 6)),
            both(b"{0bb1 0L}", no(6, 7)),
            both(b"1/0L", no(5, 0)),
            both(b"0x0L", no(6, 3)),
        ],
    ),
    (
        "A11",
        &[
            both(b"-", no(4, 0)),
            both(b"+", no(4, 0)),
            both(b"- x", no(4, 0)),
            both(b"--5", no(4, 0)),
            both(b"(a- >b)", no(4, 2)),
            both(
                b"(a->-5)",
                ok(&[[9, 0, 7, 0, 0], [7, 1, 2, 1, 2], [3, 4, 6, 2, 0]]),
            ),
            retired(
                b"(a<--5)",
                2,
                ok(&[[9, 0, 7, 0, 0], [7, 1, 2, 3, 2], [3, 4, 6, 1, 0]]),
            ),
            both(b"5-6", no(6, 1)),
            both(b"5 - 6", no(6, 2)),
            both(b"+ 0L", no(6, 3)),
        ],
    ),
    (
        "A12",
        &[
            both(b"2`x`9", ok(&[[3, 0, 5, 0, 0]])),
            both(b"-`c`5", ok(&[[3, 0, 5, 0, 0]])),
            both(b"1`c`.`d`5", ok(&[[4, 0, 9, 0, 0]])),
            both(b"0x`c`F", ok(&[[3, 0, 6, 0, 0]])),
            both(b"0`c`xF", no(6, 4)),
            both(b"\"a\"`c`\"b\"", ok(&[[7, 0, 9, 0, 1]])),
            both(b"a`c`b", no(6, 4)),
            both(b"0c`c`5", no(6, 1)),
            both(b"(a-`c`>b)", no(4, 2)),
            both(b"(a:`c`:b)", no(6, 6)),
            both(b"\"a`c`b\"", no(4, 0)),
        ],
    ),
    (
        "A13",
        &[
            both(b"`", no(4, 0)),
            both(b"5`", no(4, 1)),
            both(b"5 ` 6", no(4, 2)),
            both(b"`a`b`", no(4, 4)),
            both(b"```", no(4, 2)),
            both(b"\"`\"", no(4, 0)),
            both(b"\"a\" \"`\"", no(4, 4)),
            both(b"\"a`\" \"`b\"", no(4, 0)),
        ],
    ),
    (
        "A14",
        &[
            both(b"\"a\" \"b\"", ok(&[[7, 0, 7, 0, 1]])),
            both(b"\"a\"\"b\"", ok(&[[7, 0, 6, 0, 1]])),
            both(b"\"a\" \"b", no(4, 4)),
            both(b"\"a\" \"\\\\x\"", no(4, 4)),
            both(b"\"\\\\<0cxD800>\" \"b", no(5, 2)),
            both(b"\"a\" b", no(6, 4)),
            both(b"::\"a\" \"b\"", ok(&[[8, 0, 9, 0, 0]])),
        ],
    ),
    (
        "A15",
        &[
            both(b"\"\\\"", ok(&[[7, 0, 3, 0, 1]])),
            both(b"\"\\\\\"", no(4, 0)),
            both(b"\"a\\\"", ok(&[[7, 0, 4, 0, 1]])),
            both(b"\"\\a\"", ok(&[[7, 0, 4, 0, 1]])),
            both(b"\"\\\\a\"", no(4, 0)),
            both(b"\"\\\\q\"", ok(&[[7, 0, 5, 0, 1]])),
            both(b"\"\\\\<0c65>\"", ok(&[[7, 0, 10, 0, 1]])),
            both(b"\"\\\\<65>\"", no(4, 0)),
            both(b"\"\\\\< 0c65>\"", no(4, 0)),
            both(b"\"\\\\<0cxD800>\"", no(5, 2)),
            both(b"\"\\\\<0cxD800\"", no(4, 0)),
            both(b"\"\\<0cxD800>\"", ok(&[[7, 0, 12, 0, 1]])),
        ],
    ),
    (
        "A16",
        &[
            both(b"\"\x7F\"", ok(&[[7, 0, 3, 0, 1]])),
            both(b"\"\xC2\x80\"", no(4, 0)),
            both(b"\"\xC2\x9F\"", no(4, 0)),
            both(b"\"\xC2\xA0\"", ok(&[[7, 0, 4, 0, 1]])),
            both(b"\"\xEF\xBB\xBF\"", ok(&[[7, 0, 5, 0, 1]])),
            both(b"\"\xEF\xBF\xBF\"", ok(&[[7, 0, 5, 0, 1]])),
            both(b"\"\t\"", no(4, 0)),
            both(b"\"\0\"", no(4, 0)),
            both(b"\"\n\"", no(4, 0)),
        ],
    ),
    (
        "A17",
        &[
            both(b"\0", no(4, 0)),
            both(b"5\0", no(4, 1)),
            both(b"5\x0C", no(4, 1)),
            both(b"`\0`5", ok(&[[3, 3, 4, 0, 0]])),
            both(b"#!\0\n5", ok(&[[3, 4, 5, 0, 0]])),
            both(b"5\xC2\xA0", no(4, 1)),
            both(b"5\xE2\x80\xA8", no(4, 1)),
        ],
    ),
    (
        "A18",
        &[
            both(
                b"(x:y)",
                ok(&[[9, 0, 5, 0, 0], [7, 1, 2, 1, 2], [7, 3, 4, 2, 2]]),
            ),
            both(b"(x::y)", no(6, 2)),
            both(
                b"(x:::y)",
                ok(&[[9, 0, 7, 0, 0], [7, 1, 2, 1, 2], [8, 3, 6, 2, 0]]),
            ),
            both(b"(x::::y)", no(4, 2)),
            both(b"(x:::::y)", no(4, 2)),
            both(b"(x::::::y)", no(4, 2)),
            both(
                b"(x: ::y)",
                ok(&[[9, 0, 8, 0, 0], [7, 1, 2, 1, 2], [8, 4, 7, 2, 0]]),
            ),
            both(b"(x:: :y)", no(6, 2)),
            both(
                b"(x::: y)",
                ok(&[[9, 0, 8, 0, 0], [7, 1, 2, 1, 2], [8, 3, 7, 2, 0]]),
            ),
            both(b":: a :: b", ok(&[[8, 0, 9, 0, 0]])),
            both(b"::a::b", ok(&[[8, 0, 6, 0, 0]])),
            both(b":::a", no(6, 0)),
            both(
                b"(::a:::b)",
                ok(&[[9, 0, 9, 0, 0], [8, 1, 4, 1, 0], [8, 5, 8, 2, 0]]),
            ),
            both(
                b"(x:`c`::y)",
                ok(&[[9, 0, 10, 0, 0], [7, 1, 2, 1, 2], [8, 6, 9, 2, 0]]),
            ),
        ],
    ),
    (
        "A19",
        &[
            each(b"[a<=*<==b]", no(7, 0), no(4, 7)),
            each(
                b"[*<-5]",
                no(7, 0),
                ok(&[[15, 0, 6, 0, 9], [3, 3, 5, 8, 0]]),
            ),
            each(
                b"[a<*<-5]",
                no(7, 0),
                ok(&[[15, 0, 8, 0, 5], [7, 1, 2, 7, 2], [3, 5, 7, 8, 0]]),
            ),
            each(b"[a<-5]", no(7, 0), no(6, 2)),
            each(b"[* <5]", no(7, 0), no(4, 3)),
            each(b"[a< *]", no(7, 0), no(4, 2)),
            each(b"[a<=*b]", no(7, 0), no(6, 5)),
            both(b"<", no(4, 0)),
            both(b"=", no(4, 0)),
            both(b".", no(4, 0)),
            both(b"/", no(4, 0)),
        ],
    ),
    (
        "A20 and R3.1",
        &[
            both(b"0xy====", no(5, 0)),
            both(b"0xyA===", no(5, 0)),
            both(b"0xyAA==", ok(&[[6, 0, 7, 0, 0]])),
            both(b"0xyAAA=", ok(&[[6, 0, 7, 0, 0]])),
            both(b"0xy=AAA", no(5, 0)),
            both(b"0xyAB==", no(5, 0)),
            both(b"0xyAAB=", no(5, 0)),
            both(b"0xyAA== AAAA", no(5, 0)),
            both(b"0xyAA==_====", no(5, 0)),
            both(b"0xyAAA=_====", no(5, 0)),
            both(b"0xy", ok(&[[6, 0, 3, 0, 0]])),
        ],
    ),
    (
        "R3.2, what A4 does not have",
        &[both(b"0xyAA=", no(6, 3)), both(b"0xy=", no(4, 3))],
    ),
    (
        "not from there: 5 of a Blob beside other faults, in 01's order",
        &[
            both(b"(a:0xyAB==)", no(5, 3)),
            both(b"(0xy====,", no(5, 1)),
            both(b"0xyAB== x", no(5, 0)),
            both(b"x 0xyAB==", no(6, 2)),
            both(b"{0xyAA==,0xyAAB=}", no(5, 9)),
            each(b"[0xyA===..5]", no(7, 0), no(5, 1)),
            each(b"(Bag:{0xy====})", no(7, 0), no(5, 6)),
            each(b"(Bag:{a:0xy====})", no(7, 0), no(6, 8)),
        ],
    ),
    (
        "A21",
        &[
            both(b"1/0", no(5, 0)),
            both(b"1/0x00", no(5, 0)),
            both(b"1/0b0_0", no(5, 0)),
            both(b"1/0 1", ok(&[[4, 0, 5, 0, 0]])),
            both(b"0/1", ok(&[[4, 0, 3, 0, 0]])),
            both(b"1.0*1^5", no(5, 0)),
            both(b"1.0*0b1^5", no(5, 0)),
            both(b"1.0*02^5", ok(&[[4, 0, 8, 0, 0]])),
            both(b"1.0*2^0", ok(&[[4, 0, 7, 0, 0]])),
            both(b"1/0*1^2", no(5, 0)),
        ],
    ),
    (
        "A22",
        &[
            both(b"0xff", no(6, 1)),
            both(b"0XFF", no(6, 1)),
            both(b"0xFf", no(6, 3)),
            both(b"0Btrue", no(6, 1)),
            both(b"0btrue", no(6, 1)),
            both(b"0l", no(6, 1)),
            both(b"0Sx", no(6, 1)),
            both(b"0xxaa", no(6, 3)),
            both(b"0cxff", no(6, 1)),
        ],
    ),
    (
        "A24",
        &[
            both(b"x $", no(4, 2)),
            both(b"() `", no(4, 3)),
            both(b"{}.", no(4, 2)),
            both(b"5 \"", no(4, 2)),
        ],
    ),
    (
        "B1",
        &[
            each(b"(Array:5)", no(7, 0), no(6, 7)),
            each(b"( Array `c` : 5)", no(7, 0), no(6, 14)),
            each(b"(Array:::x)", no(7, 0), no(6, 7)),
            both(b"(Array::x)", no(6, 6)),
            both(b"(Array::::x)", no(4, 6)),
            both(b"(Mix:$", no(7, 0)),
            both(b"(Mix $", no(4, 5)),
            both(b"(Mix:", no(7, 0)),
            both(b"(Mix", no(6, 4)),
            both(b"(Mix)", ok(&[[7, 1, 4, 0, 2]])),
            both(b"(Mix,)", ok(&[[10, 0, 6, 0, 0], [7, 1, 4, 5, 2]])),
            both(
                b"(Mix->5)",
                ok(&[[9, 0, 8, 0, 0], [7, 1, 4, 1, 2], [3, 6, 7, 2, 0]]),
            ),
            retired(
                b"(Mix<-5)",
                4,
                ok(&[[9, 0, 8, 0, 0], [7, 1, 4, 3, 2], [3, 6, 7, 1, 0]]),
            ),
            both(
                b"(,Mix:5)",
                ok(&[[10, 0, 8, 0, 0], [7, 2, 5, 4, 2], [3, 6, 7, 5, 0]]),
            ),
            both(
                b"((Mix):5)",
                ok(&[[9, 0, 9, 0, 0], [7, 2, 5, 1, 2], [3, 7, 8, 2, 0]]),
            ),
            both(
                b"(\"Mix\":5)",
                ok(&[[9, 0, 9, 0, 0], [7, 1, 6, 1, 1], [3, 7, 8, 2, 0]]),
            ),
            both(
                b"{Mix:5}",
                ok(&[[11, 0, 7, 0, 0], [7, 1, 4, 1, 2], [3, 5, 6, 2, 0]]),
            ),
            both(
                b"(x,Mix:5)",
                ok(&[
                    [10, 0, 9, 0, 0],
                    [7, 1, 2, 5, 2],
                    [7, 3, 6, 4, 2],
                    [3, 7, 8, 5, 0],
                ]),
            ),
            both(
                b"(Mixx:5)",
                ok(&[[9, 0, 8, 0, 0], [7, 1, 5, 1, 2], [3, 6, 7, 2, 0]]),
            ),
            both(
                b"(::Mix:5)",
                ok(&[[9, 0, 9, 0, 0], [8, 1, 6, 1, 0], [3, 7, 8, 2, 0]]),
            ),
        ],
    ),
    (
        "B2",
        &[
            both(b"::0L", no(6, 2)),
            each(b"(Array:[1])", no(7, 0), no(6, 7)),
            each(b"(Array:(Mix:{}))", no(7, 0), no(6, 7)),
            each(b"(Array:0L)", no(7, 0), no(6, 7)),
            each(b"(Array:{a:0L})", no(7, 0), no(6, 10)),
            each(b"(Set:{a:[]})", no(7, 0), no(6, 8)),
            each(b"(Bag:{a:(Mix:{})})", no(7, 0), no(6, 8)),
            both(b"{,,0L}", no(6, 3)),
            both(b"x[", no(6, 1)),
            both(b"x 0L", no(6, 2)),
            both(b"x (Mix:{})", no(6, 2)),
            each(b"[*0L]", no(7, 0), no(6, 2)),
            each(b"[*<0L]", no(7, 0), no(7, 3)),
            both(b"(0L:5,)", no(7, 1)),
            both(b"(x,0L", no(7, 3)),
            both(b"{a:0L", no(7, 3)),
        ],
    ),
    (
        "B3",
        &[
            each(b"[", no(7, 0), no(6, 1)),
            each(b"[$", no(7, 0), no(4, 1)),
            both(b"($[", no(4, 1)),
            both(b"(1/0:[", no(5, 1)),
            both(b"(x y [", no(6, 3)),
            each(b"(Set:{1/0})", no(7, 0), no(5, 6)),
            each(b"{[1],0L}", no(7, 1), no(7, 5)),
        ],
    ),
    (
        "B4",
        &[
            each(
                b"(Array:{a:5})",
                no(7, 0),
                ok(&[[12, 0, 13, 0, 0], [7, 8, 9, 5, 2], [3, 10, 11, 6, 0]]),
            ),
            each(b"(Array:{a:+5})", no(7, 0), no(6, 10)),
            each(b"(Array:{a:-0})", no(7, 0), no(6, 10)),
            each(
                b"(Array:{a:0x F})",
                no(7, 0),
                ok(&[[12, 0, 16, 0, 0], [7, 8, 9, 5, 2], [3, 10, 14, 6, 0]]),
            ),
            each(
                b"(Array:{a:5 6})",
                no(7, 0),
                ok(&[[12, 0, 15, 0, 0], [7, 8, 9, 5, 2], [3, 10, 13, 6, 0]]),
            ),
            each(b"(Array:{a:1.0})", no(7, 0), no(6, 10)),
            each(b"(Array:{a:1/0})", no(7, 0), no(6, 10)),
            each(b"(Array:{a:(5)})", no(7, 0), no(6, 10)),
            each(
                b"(Set:{a:0bTRUE})",
                no(7, 0),
                ok(&[[13, 0, 16, 0, 0], [7, 6, 7, 5, 2], [2, 8, 14, 6, 1]]),
            ),
            each(b"(Set:{a:1})", no(7, 0), no(6, 8)),
            each(b"(Set:{a:b})", no(7, 0), no(6, 8)),
            each(b"(Array:{a->5})", no(7, 0), no(6, 9)),
            each(b"(Array:{a:5:6})", no(7, 0), no(6, 11)),
        ],
    ),
    (
        "B5",
        &[
            both(b"{}", ok(&[[11, 0, 2, 0, 0]])),
            both(b"{,}", ok(&[[11, 0, 3, 0, 0]])),
            both(b"{,,}", ok(&[[11, 0, 4, 0, 0]])),
            both(b"{,,,}", no(6, 3)),
            both(b"{,a}", ok(&[[11, 0, 4, 0, 0], [7, 2, 3, 1, 2]])),
            both(b"{a,}", ok(&[[11, 0, 4, 0, 0], [7, 1, 2, 1, 2]])),
            both(b"{,a,}", ok(&[[11, 0, 5, 0, 0], [7, 2, 3, 1, 2]])),
            both(b"{a,,}", no(6, 3)),
            both(b"{,,a}", no(6, 3)),
            both(b"{a,,b}", no(6, 3)),
            both(b"()", ok(&[[10, 0, 2, 0, 0]])),
            both(b"(,)", no(6, 2)),
            both(b"(,,)", no(6, 2)),
            both(b"(,a)", ok(&[[10, 0, 4, 0, 0], [7, 2, 3, 5, 2]])),
            both(b"(a,)", ok(&[[10, 0, 4, 0, 0], [7, 1, 2, 5, 2]])),
            both(b"(,a,)", ok(&[[10, 0, 5, 0, 0], [7, 2, 3, 5, 2]])),
            both(b"(a,,)", no(6, 3)),
            both(b"(,,a)", no(6, 2)),
            each(b"(Array:{,,})", no(7, 0), ok(&[[12, 0, 12, 0, 0]])),
            each(b"[,]", no(7, 0), no(6, 1)),
        ],
    ),
    (
        "B6",
        &[
            both(
                b"(x:y,)",
                ok(&[[10, 0, 6, 0, 0], [7, 1, 2, 4, 2], [7, 3, 4, 5, 2]]),
            ),
            both(
                b"((x):y)",
                ok(&[[9, 0, 7, 0, 0], [7, 2, 3, 1, 2], [7, 5, 6, 2, 2]]),
            ),
            both(b"((x):y,)", no(6, 6)),
            both(
                b"(5:y)",
                ok(&[[9, 0, 5, 0, 0], [3, 1, 2, 1, 0], [7, 3, 4, 2, 2]]),
            ),
            both(b"(5:y,)", no(6, 4)),
            both(b"(,5:y)", no(6, 3)),
            both(b"(a,5:y)", no(6, 4)),
            both(b"(,(x):y)", no(6, 5)),
            both(b"(x->y,)", no(6, 5)),
            both(b"(,x->y)", no(6, 3)),
            both(
                b"(0c65:y,)",
                ok(&[[10, 0, 9, 0, 0], [7, 1, 5, 4, 3], [7, 6, 7, 5, 2]]),
            ),
            both(
                b"(\"a\" \"b\":y,)",
                ok(&[[10, 0, 12, 0, 0], [7, 1, 8, 4, 1], [7, 9, 10, 5, 2]]),
            ),
            both(
                b"(::a::b:y,)",
                ok(&[[10, 0, 11, 0, 0], [8, 1, 7, 4, 0], [7, 8, 9, 5, 2]]),
            ),
            both(b"((::a):y,)", no(6, 8)),
            both(b"(x:y:z)", no(6, 4)),
            both(b"({}:y,)", no(6, 5)),
        ],
    ),
    (
        "B7",
        &[
            both(
                b"{{{{{{{{{{{{{{{{{{{{{{{{{{{{{{{{}}}}}}}}}}}}}}}}}}}}}}}}}}}}}}}}",
                count(32),
            ),
            both(b"{{{{{{{{{{{{{{{{{{{{{{{{{{{{{{{{{", no(11, 32)),
            both(b"(((((((((((((((((((((((((((((((((", no(11, 32)),
            each(
                b"{{{{{{{{{{{{{{{{{{{{{{{{{{{{{{{{(Set:{})",
                no(7, 32),
                no(11, 32),
            ),
            each(
                b"{{{{{{{{{{{{{{{{{{{{{{{{{{{{{{{(Set:{})",
                no(7, 31),
                no(11, 36),
            ),
            each(
                b"{{{{{{{{{{{{{{{{{{{{{{{{{{{{{{{(Set:5)",
                no(7, 31),
                no(6, 36),
            ),
            each(b"{{{{{{{{{{{{{{{{{{{{{{{{{{{{{{{{[]", no(7, 32), no(11, 32)),
            both(b"{{{{{{{{{{{{{{{{{{{{{{{{{{{{{{{{(Mix:", no(7, 32)),
            both(b"{{{{{{{{{{{{{{{{{{{{{{{{{{{{{{{{x(", no(6, 33)),
        ],
    ),
    (
        "B8",
        &[
            each(b"(Array:5)", no(7, 0), no(6, 7)),
            each(b"(Array:{a:-5})", no(7, 0), no(6, 10)),
            both(b"x 1/0", no(6, 2)),
            both(b"(1/0", no(5, 1)),
            each(b"[1/0..$", no(7, 0), no(5, 1)),
        ],
    ),
    (
        "B9",
        &[
            both(b"{}5", no(6, 2)),
            both(b"{5}", ok(&[[11, 0, 3, 0, 0], [3, 1, 2, 1, 0]])),
        ],
    ),
    (
        "B10",
        &[
            both(b"((x))", ok(&[[7, 2, 3, 0, 2]])),
            both(b" ( ( x ) ) ", ok(&[[7, 5, 6, 0, 2]])),
            retired(
                b"(b<-a)",
                2,
                ok(&[[9, 0, 6, 0, 0], [7, 1, 2, 3, 2], [7, 4, 5, 1, 2]]),
            ),
            retired(
                b"{b<-a}",
                2,
                ok(&[[11, 0, 6, 0, 0], [7, 1, 2, 3, 2], [7, 4, 5, 1, 2]]),
            ),
            each(
                b"(Set:{a:0bTRUE})",
                no(7, 0),
                ok(&[[13, 0, 16, 0, 0], [7, 6, 7, 5, 2], [2, 8, 14, 6, 1]]),
            ),
            both(b":: a ::\"b\" \"c\" ", ok(&[[8, 0, 14, 0, 0]])),
            each(b"[x]", no(7, 0), ok(&[[15, 0, 3, 0, 1], [7, 1, 2, 9, 2]])),
            each(b"[x<*]", no(7, 0), ok(&[[15, 0, 5, 0, 7], [7, 1, 2, 7, 2]])),
            each(b"[*<x]", no(7, 0), ok(&[[15, 0, 5, 0, 9], [7, 3, 4, 8, 2]])),
            each(b"[]", no(7, 0), ok(&[[15, 0, 2, 0, 0]])),
            each(b"[*]", no(7, 0), ok(&[[15, 0, 3, 0, 10]])),
        ],
    ),
    (
        "B11",
        &[
            both(b"\"\"", ok(&[[7, 0, 2, 0, 1]])),
            both(b"\"\\\"", ok(&[[7, 0, 3, 0, 1]])),
            both(b"\"a\" \"b\"", ok(&[[7, 0, 7, 0, 1]])),
            both(b"Set", ok(&[[7, 0, 3, 0, 2]])),
            both(b"0c65", ok(&[[7, 0, 4, 0, 3]])),
            both(
                b"(0c0:1,)",
                ok(&[[10, 0, 8, 0, 0], [7, 1, 4, 4, 3], [3, 5, 6, 5, 0]]),
            ),
            both(b"::x", ok(&[[8, 0, 3, 0, 0]])),
        ],
    ),
    (
        "C1",
        &[
            both(b"", no(6, 0)),
            both(b" ", no(6, 1)),
            both(b"( ", no(6, 2)),
            both(b"(`c`", no(6, 4)),
            both(b"\xEF\xBB\xBF", no(6, 3)),
            both(b"#!", no(6, 2)),
            both(b"#!x\n", no(6, 4)),
            both(b"{a:", no(6, 3)),
        ],
    ),
    (
        "C2",
        &[
            both(b"1/0 $", no(5, 0)),
            both(b"(1/0:$", no(5, 1)),
            both(b"x 1/0", no(6, 2)),
            both(b"x $", no(4, 2)),
            both(b"1/0 $ 1/0", no(5, 0)),
            both(b"1/0 1/0", no(4, 5)),
        ],
    ),
    (
        "C3",
        &[
            both(b"$\xFF", no(3, 1)),
            both(b"`\xFF`5", no(3, 1)),
            both(b"#!\xFF\n5", no(3, 2)),
            both(b"(\xE2\x82", no(3, 1)),
            both(b"\xED\xA0\x80", no(3, 0)),
            both(b"\xF4\x90\x80\x80", no(3, 0)),
            both(b"\xC0\x80", no(3, 0)),
            both(b"x\xF0\x9F\x98", no(3, 1)),
        ],
    ),
    (
        "D1",
        &[
            both(b"\xEF\xBB\xBF5", ok(&[[3, 3, 4, 0, 0]])),
            both(b"\xEF\xBB\xBF\xEF\xBB\xBF5", no(4, 3)),
            both(b"5\xEF\xBB\xBF", no(4, 1)),
            both(b"\xEF\xBB\xBF#!x\n5", ok(&[[3, 7, 8, 0, 0]])),
            both(b"#!\xEF\xBB\xBF\n5", ok(&[[3, 6, 7, 0, 0]])),
            both(b" #!\n5", no(4, 1)),
            both(b"#!x\r5", no(6, 5)),
            both(b"#!x\r\n5", ok(&[[3, 5, 6, 0, 0]])),
            both(b"#!x\n#!y\n5", no(4, 4)),
            both(b"#!x", no(6, 3)),
            both(b"#!`\n5", ok(&[[3, 4, 5, 0, 0]])),
            both(b"# !\n5", no(4, 0)),
            both(b"\xEF\xBB", no(3, 0)),
            both(b"#!x\n\xEF\xBB\xBF5", no(4, 4)),
        ],
    ),
    (
        "R6.1",
        &[
            retired(
                b"{a,b<-c}",
                4,
                ok(&[
                    [11, 0, 8, 0, 0],
                    [7, 1, 2, 1, 2],
                    [7, 3, 4, 3, 2],
                    [7, 6, 7, 1, 2],
                ]),
            ),
            retired(
                b"(a<-b)",
                2,
                ok(&[[9, 0, 6, 0, 0], [7, 1, 2, 3, 2], [7, 4, 5, 1, 2]]),
            ),
            retired(b"(a<-$", 2, no(4, 4)),
            both(b"<-", no(6, 0)),
            both(b"(<-a)", no(6, 1)),
            both(b"(,a<-b)", no(6, 3)),
            each(b"[a<-b]", no(7, 0), no(6, 2)),
            both(b"(a:b<-c)", no(6, 4)),
            each(b"(Array:{a<-5})", no(7, 0), no(6, 9)),
            retired(
                b"(Mix<-5)",
                4,
                ok(&[[9, 0, 8, 0, 0], [7, 1, 4, 3, 2], [3, 6, 7, 1, 0]]),
            ),
            both(b"(0L<-5)", no(7, 1)),
        ],
    ),
    (
        "R6.3",
        &[
            both(b"(1/0<-b)", no(5, 1)),
            retired(b"(a<-1/0)", 2, no(5, 4)),
            retired(b"{a<-b,$", 2, no(4, 6)),
        ],
    ),
    (
        "R7.1",
        &[both(
            b"(x:(y,z))",
            ok(&[
                [9, 0, 9, 0, 0],
                [7, 1, 2, 1, 2],
                [10, 3, 8, 2, 0],
                [7, 4, 5, 5, 2],
                [7, 6, 7, 5, 2],
            ]),
        )],
    ),
    (
        "R8.1",
        &[
            both(b"\"\\\\<0cxD800>\"", no(5, 2)),
            both(b"\"a\" \"\\b\\<0c65>\\<0cxD800>\\<0cxDFFF>\"", no(5, 14)),
            both(b"x \"\\\\<0cxD800>\"", no(6, 2)),
            both(b"::a::0cxD800", no(5, 5)),
            both(b"(x:\"\\\\<0cx110000>\")", no(5, 5)),
        ],
    ),
    (
        "R9.1",
        &[
            both(b"1 2", ok(&[[3, 0, 3, 0, 0]])),
            both(b"1`c`2", ok(&[[3, 0, 5, 0, 0]])),
            both(b"#!x\n 5", ok(&[[3, 5, 6, 0, 0]])),
        ],
    ),
];

/// Text, words of the table, answer at level 2.
pub const ROOMS: &[(&[u8], usize, Want)] = &[
    (b"x", 0, lacks(1, 1)),
    (b"x", 5, lacks(1, 1)),
    (b"x", 6, lacks(1, 1)),
    (b"x", 7, ok(&[[7, 0, 1, 0, 2]])),
    (b"(x:y)", 18, lacks(5, 3)),
    (b"(x:y)", 20, lacks(5, 3)),
    (
        b"(x:y)",
        21,
        ok(&[[9, 0, 5, 0, 0], [7, 1, 2, 1, 2], [7, 3, 4, 2, 2]]),
    ),
    (b"(x", 0, no(6, 2)),
    (b"[x]", 0, lacks(3, 2)),
    (b"{x}", 0, lacks(3, 2)),
];

/// Text, level, answer.
pub const LEVELS: &[(&[u8], u32, Want)] = &[
    (b"x", 0, no(1, 0)),
    (b"x", 3, no(1, 0)),
    (b"x", 257, no(1, 0)),
];

/// Piece, number, place and value of an Integer call; the count is 0.
pub const INTEGERS: &[(&[u8], u32, usize, i64)] = &[
    (b" 5", 9, 0, 0),
    (b"- 5", 0, 3, -5),
    (b"-`c`\n5", 0, 6, -5),
    (b"-0", 0, 2, 0),
    (b"0000000000000000000000000000007", 0, 31, 7),
    (b"9223372036854775807", 0, 19, 9223372036854775807),
    (b"9223372036854775808", 10, 0, 0),
    (b"-9223372036854775808", 0, 20, -9223372036854775808),
    (b"-9223372036854775809", 10, 0, 0),
    (b"+ 0x_5", 9, 0, 0),
    (b"5 ", 9, 0, 0),
    (b"5.0", 9, 0, 0),
    (b"", 9, 0, 0),
    (b"\xEF\xBB\xBF5", 9, 0, 0),
    (b"(5)", 9, 0, 0),
    (b"5\xFF", 3, 1, 0),
];

/// Piece, buffer length, number, place, count and bytes of a call that
/// writes to a buffer.
pub type BytesCall = (&'static [u8], usize, u32, usize, usize, &'static [u8]);

pub const TEXTS: &[BytesCall] = &[
    (
        b"\"a\" \"\\\\n\" \"\\n\" \"\\\\b\"",
        64,
        0,
        20,
        4,
        b"a\nn\\",
    ),
    (b"\"\\\\b\"", 64, 0, 5, 1, b"\\"),
    (b"\"a\\b\"", 64, 0, 5, 3, b"a\\b"),
    (b"\"\\\\q\\g\\t\\n\\r\"", 64, 0, 13, 5, b"\"`\t\n\r"),
    (b"Set", 64, 0, 3, 3, b"Set"),
    (b"\"\"", 64, 0, 2, 0, b""),
    (b"::a", 64, 9, 0, 0, b""),
    (b"0cxD800", 64, 5, 0, 0, b""),
    (b"0c0", 64, 0, 3, 1, b"\0"),
    (b"\"a\" ", 64, 9, 0, 0, b""),
    (b"\"ab\"", 0, 8, 4, 2, b""),
    (b"\"\\\\<0cxD800>\"", 0, 5, 2, 0, b""),
    (b"\"a\" \"\\x\\<0cxD800>\"", 64, 5, 7, 0, b""),
];

pub const BLOBS: &[BytesCall] = &[
    (b"0xy====", 64, 5, 0, 0, b""),
    (b"0xyA===", 64, 5, 0, 0, b""),
    (b"0xyAA==", 64, 0, 7, 1, b"\0"),
    (b"0xyAAA=", 64, 0, 7, 2, b"\0\0"),
    (b"0xyAB==", 64, 5, 0, 0, b""),
    (b"0xyAQ==", 64, 0, 7, 1, b"\x01"),
    (b"0xyAAB=", 64, 5, 0, 0, b""),
    (b"0xyAAA=_====", 64, 5, 0, 0, b""),
    (b"0xyAA== AAAA", 64, 5, 0, 0, b""),
    (b"0xy", 64, 0, 3, 0, b""),
    (b"0xyTWF", 64, 9, 0, 0, b""),
    (b"0xxA7_05 FF", 64, 0, 11, 3, b"\xA7\x05\xFF"),
    (b"0xb00000001", 64, 0, 11, 1, b"\x01"),
    (b"0xxA", 64, 9, 0, 0, b""),
    (b"0bb1", 64, 9, 0, 0, b""),
];

pub const BITS: &[BytesCall] = &[
    (b"0bb", 64, 0, 3, 0, b""),
    (b"0bb ", 64, 9, 0, 0, b""),
    (b"0bo17", 64, 0, 5, 6, b"\0\0\x01\x01\x01\x01"),
    (b"0bxA", 64, 0, 4, 4, b"\x01\0\x01\0"),
    (b"0bb1_0 1", 64, 0, 8, 3, b"\x01\0\x01"),
    (b"0xx", 64, 9, 0, 0, b""),
];

/// Text, buffer length, number, place, count and bytes of the stored file.
pub const FILES: &[BytesCall] = &[
    (
        b"(x:y)",
        64,
        0,
        5,
        45,
        b"FNT\0\x01\0\x03\0\x05\0\x09\0\0\0\x05\0\0\0\0\0\0\
          \0\x07\0\x01\0\x02\0\0\0\x01\0\x02\0\x07\0\x03\0\x04\0\0\0\x02\0\x02",
    ),
    (b"(x", 64, 6, 2, 0, b""),
    (b"(x:\"\\\\<0cx110000>\")", 64, 5, 5, 0, b""),
];

/// Text, file and the number with which it is refused; place and count are 0.
pub const CHECKS: &[(&[u8], &[u8], u32)] = &[
    (b"x", b"FNT\0", 12),
    (b"x", b"FNX\0\x01\0", 12),
    (b"x", b"FNT\0\x02", 13),
    (b"x", b"FNT\0\x01", 14),
    (b"(", b"FNT\0\x01", 14),
    (b"\xFF", b"FNT\0\x02", 13),
    (b"\xFF", b"FNT\0\x01\0\0\0\x01", 14),
];

/// The plain form at level 2: a text, and its bytes.
pub const PLAIN: &[(&[u8], &[u8])] = &[
    (b"( , x : + 0d 1_0 , )", b"(x:+0d10,)"),
    (b"((x):(y))", b"(x:y)"),
    (b"{,a->b,}", b"{a:b}"),
    (b"(x,)", b"(x,)"),
    (b"[ 1 <=*< 2 ]", b"[1<=*<2]"),
    (b"\"a_ b\" `c` \"\\\\n\"", b"\"a_ b\"\"\\\\n\""),
    (b"0xy AAAA_BBBB", b"0xyAAAABBBB"),
    (b"(::a : ::b)", b"(::a:::b)"),
    (b"- 1 / 2 * 3 ^ - 4", b"-1/2*3^-4"),
    (b"{,,}", b"{}"),
    (b"(Set:{ , a : 0bTRUE , })", b"(Set:{a:0bTRUE})"),
    (b"Set", b"\"Set\""),
    (b"(Array->5)", b"(\"Array\":5)"),
    (b"(,Array:5)", b"(\"Array\":5,)"),
    (b"::Set::a", b"::\"Set\"::a"),
    (b"{Mix}", b"{\"Mix\"}"),
    (b"(Array:{Array:2})", b"(Array:{\"Array\":2})"),
    (b"((Bag),x)", b"(\"Bag\",x)"),
    (b"{Set,Bag}", b"{\"Set\",\"Bag\"}"),
];

/// Text, buffer length, number, place, count and bytes of the converter at
/// level 2.
pub const CONVERTED: &[BytesCall] = &[
    (b"{b<-a}", 64, 0, 6, 5, b"{a:b}"),
    (b"(b<-a)", 64, 0, 6, 5, b"(a:b)"),
    (b"(x:1,x:2)", 64, 0, 9, 9, b"(x:1,x:2)"),
    (b"{a<-\"\\\\<0cxD800>\"}", 64, 5, 6, 0, b""),
    (b"(b<-a)", 4, 8, 6, 5, b""),
    (b"(a<-$", 0, 4, 4, 0, b""),
];

/// A text, and the seventh words of its nodes at level 2.
pub const SKIPS: &[(&[u8], &[u32])] = &[
    (b"(x:(y,z))", &[5, 2, 5, 4, 5]),
    (b"x", &[1]),
    // empty brackets, and what makes no node of its own
    (b"()", &[1]),
    (b"{,,}", &[1]),
    (b"[*]", &[1]),
    (b"(Set:{})", &[1]),
    (b"(((x)))", &[1]),
    (b"((x):({(y)}))", &[4, 2, 4, 4]),
    (b"::a::b", &[1]),
    (b"(::a:::b)", &[3, 2, 3]),
    // brackets in brackets, in front, between and behind
    (b"{{},{{}},{}}", &[5, 2, 4, 4, 5]),
    (b"{a:{b:{c:d}},e}", &[8, 2, 7, 4, 7, 6, 7, 8]),
    (b"(x:1,(y,z),w:{})", &[8, 2, 3, 6, 5, 6, 7, 8]),
    (b"[{a}<=*]", &[3, 3, 3]),
    (b"{(x:y),[a..(Bag:{b:2})]}", &[9, 4, 3, 4, 9, 6, 9, 8, 9]),
    (b"(Set:{(a,b),5:0bTRUE})", &[6, 4, 3, 4, 5, 6]),
];

/// Standard input and output of the program.
pub const LISTINGS: &[(&[u8], &[u8])] = &[
    (b"", b"no 6 0\n"),
    (
        b"(x:y)",
        b"ok 2 3\n9 0 5 0 0 0 3\n7 1 2 0 1 2 2\n7 3 4 0 2 2 3\n",
    ),
    (
        b"(x:(y,z))",
        b"ok 2 5\n9 0 9 0 0 0 5\n7 1 2 0 1 2 2\n10 3 8 0 2 0 5\n7 4 5 2 5 2 4\n7 6 7 2 5 2 5\n",
    ),
];
