//! Random characters from an alphabet heavy in what MUON gives a meaning.

use super::random::Random;

const FRAGMENTS: &[&str] = &[
    "0",
    "1",
    "2",
    "7",
    "9",
    "10",
    "A",
    "F",
    "a",
    "b",
    "x",
    "_",
    " ",
    " ",
    "\n",
    "\t",
    "\r",
    "`",
    "`",
    "``",
    "`c`",
    "\"",
    "\"",
    "\"\"",
    "\"a\"",
    "\\",
    "\\\\",
    "\"\\",
    "\\n",
    "\\q",
    "\\<0c65>",
    "\\<0cxD800>",
    "<",
    ">",
    "=",
    "*",
    ".",
    "..",
    "/",
    "^",
    "+",
    "-",
    "->",
    "<-",
    ",",
    ":",
    "::",
    ":::",
    "(",
    ")",
    "{",
    "}",
    "[",
    "]",
    "<=*<=",
    "<=*<",
    "<*<=",
    "<*<",
    "<=*",
    "<*",
    "*<=",
    "*<",
    "0b",
    "0o",
    "0d",
    "0x",
    "0bb",
    "0bo",
    "0bx",
    "0xb",
    "0xx",
    "0xy",
    "0c",
    "0cb",
    "0co",
    "0cd",
    "0cx",
    "0s",
    "0L",
    "0Lct",
    "0bTRUE",
    "0bFALSE",
    "0sIGNORANCE",
    "TRUE",
    "Array",
    "Set",
    "Bag",
    "Mix",
    "Interval_Set",
    "(Array:",
    "(Set:{",
    "(Bag:{",
    "(Mix:",
    "#!",
    "#",
    "$",
    "@",
    "|",
    "'",
    "~",
    "10101010",
    "AAAA",
    "AA==",
    "D800",
    "10FFFF",
    "110000",
    "*2^3",
    "/0",
    "/1",
    ".5",
    "\0",
    "\u{7F}",
    "\u{80}",
    "\u{9F}",
    "\u{A0}",
    "\u{E9}",
    "\u{FEFF}",
    "\u{2028}",
    "\u{30B5}",
    "\u{FFFF}",
    "\u{10FFFF}",
];

/// Mostly fragments, seldom a byte of any value.
pub fn text(random: &mut Random) -> Vec<u8> {
    let wild = random.once_in(4);
    let fragments = random.below(24);
    let mut text = front(random);
    for _ in 0..fragments {
        text.extend(piece(random, wild));
    }
    text
}

/// Now and then a byte-order mark, an interpreter line or both.
pub fn front(random: &mut Random) -> Vec<u8> {
    let mut text = Vec::new();
    if random.once_in(24) {
        text.extend(b"\xEF\xBB\xBF");
    }
    if random.once_in(24) {
        text.extend(
            random
                .pick(&["#!x\n", "#!", "#!`\r\n", "#!\"\n#!\n"])
                .bytes(),
        );
    }
    text
}

/// One fragment; any byte at all is left to the wild ones.
pub fn piece(random: &mut Random, wild: bool) -> Vec<u8> {
    if wild && random.once_in(8) {
        return vec![random.byte()];
    }
    random.pick(FRAGMENTS).as_bytes().to_vec()
}
