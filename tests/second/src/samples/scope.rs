//! The texts of the scope paper with the answers it gives.

use super::{both, count, each, no, ok, retired, Sample};

const DEEP_32: &[u8] = b"{{{{{{{{{{{{{{{{{{{{{{{{{{{{{{{{}}}}}}}}}}}}}}}}}}}}}}}}}}}}}}}}";
const DEEP_33: &[u8] = b"{{{{{{{{{{{{{{{{{{{{{{{{{{{{{{{{{}}}}}}}}}}}}}}}}}}}}}}}}}}}}}}}}}";

pub const EXAMPLES: &[Sample] = &[
    both(b"", no(6, 0)),
    both(b"()", ok(&[[10, 0, 2, 0, 0]])),
    both(b"(,)", no(6, 2)),
    both(b"{,,}", ok(&[[11, 0, 4, 0, 0]])),
    both(b"(x)", ok(&[[7, 1, 2, 0, 2]])),
    both(b"29 56", ok(&[[3, 0, 5, 0, 0]])),
    both(b"(5:y,)", no(6, 4)),
    both(b"(a,,b)", no(6, 3)),
    retired(
        b"{a,b<-c}",
        4,
        ok(&[
            [11, 0, 8, 0, 0],
            [7, 1, 2, 1, 2],
            [7, 3, 4, 3, 2],
            [7, 6, 7, 1, 2],
        ]),
    ),
    both(
        b"(x:::y)",
        ok(&[[9, 0, 7, 0, 0], [7, 1, 2, 1, 2], [8, 3, 6, 2, 0]]),
    ),
    both(b"0b2", no(6, 1)),
    both(b"\"a", no(4, 0)),
    both(b"1/0", no(5, 0)),
    each(
        b"[1..10]",
        no(7, 0),
        ok(&[[15, 0, 7, 0, 11], [3, 1, 2, 7, 0], [3, 4, 6, 8, 0]]),
    ),
    each(
        b"(Array:{a:20})",
        no(7, 0),
        ok(&[[12, 0, 14, 0, 0], [7, 8, 9, 5, 2], [3, 10, 12, 6, 0]]),
    ),
    each(b"(Array:5)", no(7, 0), no(6, 7)),
    both(
        b"(\"Array\":{a})",
        ok(&[
            [9, 0, 13, 0, 0],
            [7, 1, 8, 1, 1],
            [11, 9, 12, 2, 0],
            [7, 10, 11, 1, 2],
        ]),
    ),
    both(b"{1 0Lct}", no(6, 4)),
    both(b"\"\\\"", ok(&[[7, 0, 3, 0, 1]])),
    both(DEEP_32, count(32)),
    both(DEEP_33, no(11, 32)),
    // From the rules and the readings not wanted.
    both(b"::5", no(6, 2)),
    both(
        b"(x:y)",
        ok(&[[9, 0, 5, 0, 0], [7, 1, 2, 1, 2], [7, 3, 4, 2, 2]]),
    ),
    each(
        b"(Set:{7,7})",
        no(7, 0),
        ok(&[[13, 0, 11, 0, 0], [3, 6, 7, 5, 0], [3, 8, 9, 5, 0]]),
    ),
    both(b"1..10", no(6, 1)),
    both(b"\"a\\n\"", ok(&[[7, 0, 5, 0, 1]])),
    both(
        b"{a:b,c}",
        ok(&[
            [11, 0, 7, 0, 0],
            [7, 1, 2, 1, 2],
            [7, 3, 4, 2, 2],
            [7, 5, 6, 1, 2],
        ]),
    ),
    both(b"{,}", ok(&[[11, 0, 3, 0, 0]])),
    both(b"(Article:::Negative_Zero)", no(7, 0)),
    both(b"\"`c`\"", no(4, 0)),
];

/// The program's whole output for `(x:y)`, with request 7's word at the end of
/// each node.
pub const LISTING: (&[u8], &[u8]) = (
    b"(x:y)",
    b"ok 2 3\n9 0 5 0 0 0 3\n7 1 2 0 1 2 2\n7 3 4 0 2 2 3\n",
);
