//! Texts and pieces of a given length, each of one shape; accepted but for those with
//! an escape out of range.

use second::answer::{DEPTH_MAX, NODES_MAX};
use std::iter;

pub const SIZES: [usize; 3] = [1_024, 8_192, 32_768];

/// A text of so many bytes, or of fewer.
pub type Shape = fn(usize) -> Vec<u8>;

pub const SHAPES: [(&str, Shape); 33] = [
    ("settings", settings),
    ("bare-settings", bare_settings),
    ("comment", |size| comment(PLAIN, size)),
    ("foreign-comment", |size| comment(FOREIGN, size)),
    ("short-comments", short_comments),
    ("nesting", nesting),
    ("groups", groups),
    ("quoted", |size| quoted(PLAIN, size)),
    ("quoted-accents", |size| quoted(ACCENTED, size)),
    ("segments", segments),
    ("word", word),
    ("short-words", short_words),
    ("integer", integer),
    ("digits", digits),
    ("grouped-integer", grouped_integer),
    // members of one kind, without space
    ("dense", |size| lot(&["1"], 1, size)),
    ("integers", |size| {
        lot(&["-12", "+5", "0", "1_000", "0x F3"], 1, size)
    }),
    ("fractions", |size| lot(&["-1.5", "2.25", "1/2"], 1, size)),
    ("bits", |size| lot(&["0bb0101", "0bo37", "0bxF3"], 1, size)),
    ("blobs", |size| lot(&["0xxF3A0", "0xyRnJv"], 1, size)),
    ("constants", |size| {
        lot(&["0bTRUE", "0bFALSE", "0sIGNORANCE", "0c65"], 1, size)
    }),
    ("words", |size| lot(&["upper_rows", "creek"], 1, size)),
    ("capital-words", |size| {
        lot(&["Upper_rows", "Article"], 1, size)
    }),
    ("texts", |size| {
        lot(&["\"upper rows\"", "\"at the creek\""], 1, size)
    }),
    ("escaped-texts", |size| {
        lot(&["\"\\row\\n2\"", "\"\\<0c65>\\q\""], 1, size)
    }),
    ("nestings", |size| {
        lot(&["::site::creek", "::upper"], 1, size)
    }),
    ("empty-tuples", |size| lot(&["()", "( )"], 1, size)),
    ("tuples", |size| lot(&["(1,2)", "(a:1,)"], 3, size)),
    ("intervals", |size| lot(&["[18..30]", "[0<=*<5]"], 3, size)),
    ("arrays", |size| lot(&["(Array:{a:20})"], 3, size)),
    ("names", |size| tuple(&["name_of_it", "n"], size)),
    ("quoted-names", |size| tuple(&["\"a name\"", "\"n\""], size)),
    ("capital-names", |size| {
        tuple(&["Name_of_it", "Article_of"], size)
    }),
];

pub const BLOB_SHAPES: [(&str, Shape); 4] = [
    ("blob-base-2", |size| literal("0xb", "01000110", size)),
    ("blob-base-16", |size| literal("0xx", "F3", size)),
    ("blob-base-64", |size| literal("0xy", "RnJv", size)),
    ("blob-in-lines", blob_in_lines),
];

pub const BITS_SHAPES: [(&str, Shape); 3] = [
    ("bits-base-2", |size| literal("0bb", "01", size)),
    ("bits-base-8", |size| literal("0bo", "37", size)),
    ("bits-base-16", |size| literal("0bx", "F3", size)),
];

pub const UTF8_SHAPES: [(&str, Shape); 4] = [
    ("utf8-plain", |size| filled(PLAIN, size).into_bytes()),
    ("utf8-accents", |size| filled(ACCENTED, size).into_bytes()),
    ("utf8-foreign", |size| filled(FOREIGN, size).into_bytes()),
    ("utf8-threes", |size| filled("霜の夜", size).into_bytes()),
];

/// Many lines, and one.
pub const POSITION_SHAPES: [(&str, Shape); 3] = [
    ("lines", settings),
    ("one-line", |size| filled(PLAIN, size).into_bytes()),
    ("one-accented", |size| filled(ACCENTED, size).into_bytes()),
];

/// One long Text, of letters or of escapes, whose last escape is a character's.
pub const ESCAPE_SHAPES: [(&str, Shape); 2] = [
    ("last-escape", |size| escaped(PLAIN, SOUND, size)),
    ("escapes", |size| escaped("\\<0c65>", SOUND, size)),
];
/// The same with one that is out of range.
pub const BAD_ESCAPE_SHAPES: [(&str, Shape); 2] = [
    ("bad-last-escape", |size| escaped(PLAIN, BAD, size)),
    ("bad-escapes", |size| escaped("\\<0c65>", BAD, size)),
];
/// The same for the Text call.
pub const TEXT_SHAPES: [(&str, Shape); 2] = [
    ("text-last-escape", ESCAPE_SHAPES[0].1),
    ("text-escapes", ESCAPE_SHAPES[1].1),
];
pub const BAD_TEXT_SHAPES: [(&str, Shape); 2] = [
    ("text-bad-last", BAD_ESCAPE_SHAPES[0].1),
    ("text-bad-escapes", BAD_ESCAPE_SHAPES[1].1),
];

/// The settings again, for what keeps them.
pub const WRITE_SHAPES: [(&str, Shape); 1] = [("file-written", settings)];
pub const CHECK_SHAPES: [(&str, Shape); 1] = [("file-checked", settings)];

/// And pairs.
pub const PLAIN_SHAPES: [(&str, Shape); 5] = [
    ("plain-settings", settings),
    ("plain-pairs", |size| pairs("->", size)),
    ("plain-chain", |size| chain("->", size)),
    ("plain-deep-this", |size| {
        deep_pairs("(", "->b)", "->", size)
    }),
    ("plain-deep-that", |size| {
        deep_pairs("(b->", ")", "->", size)
    }),
];

/// And pairs with the arrow that is retired: they are turned, and each side is
/// looked for.
pub const CONVERT_SHAPES: [(&str, Shape); 5] = [
    ("convert-settings", settings),
    ("convert-pairs", |size| pairs("<-", size)),
    ("convert-chain", |size| chain("<-", size)),
    ("convert-deep-this", |size| {
        deep_pairs("(b<-", ")", "<-", size)
    }),
    ("convert-deep-that", |size| {
        deep_pairs("(", "<-b)", "<-", size)
    }),
];

/// A big Lot to be passed.
pub const WALK_SHAPES: [(&str, Shape); 1] = [("last-child", site)];

/// Plain ASCII.
const PLAIN: &str = "A page of the manual, pasted whole. ";
/// A character of two bytes to some ten letters.
const ACCENTED: &str = "Une page de la notice coll\u{e9}e enti\u{e8}re. ";
/// The same in a language with characters of one, two and three bytes.
const FOREIGN: &str = "Một trang của sách hướng dẫn, dán nguyên vào. ";

/// Escapes of the same length.
const SOUND: &str = "\\<0cxE000>";
const BAD: &str = "\\<0cxD800>";

/// A word so long that 32 KB of them have fewer than 1,024 nodes.
const WORD: &str = "a_setting_with_a_name_of_33_bytes";

/// Space behind the text up to its length.
fn padded(mut text: String, size: usize) -> Vec<u8> {
    assert!(text.len() <= size, "{} of {size} bytes", text.len());
    text.extend(iter::repeat_n(' ', size - text.len()));
    text.into_bytes()
}

/// What the office program might write for one wind machine, line by line.
fn machine(number: usize) -> [String; 10] {
    [
        format!(
            "`Wind machine {number}. Temperatures are those of the air at the height of the buds.`"
        ),
        format!("name_{number} : \"Orchard at the creek, upper rows, machine {number}\","),
        format!("start_below_{number} : -1.5, `degrees Celsius`"),
        format!("stop_above_{number} : 2.25,"),
        "`An engine that turns already is never cranked: its relay stays open.`".to_string(),
        format!("engines_{number} : (Set:{{7, 8}}),"),
        "`Hours of the night in which it may start at all; the neighbours were asked.`".to_string(),
        format!("hours_{number} : [18..30],"),
        "`Where the plan of the rows lies, for the fitter.`".to_string(),
        format!("plan_{number} : \"valley/plans/2026/november/machine-{number}\","),
    ]
}

fn settings(size: usize) -> Vec<u8> {
    let mut text = "`Settings of the site, by the office program`\n(\n".to_string();
    for line in (1..).flat_map(machine) {
        if text.len() + line.len() + 7 > size {
            break;
        }
        text += &format!("    {line}\n");
    }
    padded(text + ")\n", size)
}

/// The machines in a Lot, and one setting more behind it.
fn site(size: usize) -> Vec<u8> {
    let mut text = "(machines : {\n".to_string();
    // each has 17 nodes
    let machines = (1..NODES_MAX / 17).map(machine);
    for one in machines.map(|lines| format!("({}),\n", lines.join("\n"))) {
        if text.len() + one.len() + 20 > size {
            break;
        }
        text += &one;
    }
    padded(text + "}, site : creek)\n", size)
}

/// The same without comments, of the same size: as many machines as fit, and no
/// more than there may be nodes for.
fn bare_settings(size: usize) -> Vec<u8> {
    // each has 16 nodes, and the Tuple is one more
    let machines = (1..NODES_MAX / 16).flat_map(machine);
    let mut text = "(\n".to_string();
    for line in machines.filter_map(|line| without_comment(&line)) {
        if text.len() + line.len() + 7 > size {
            break;
        }
        text += &format!("    {line}\n");
    }
    (text + ")\n").into_bytes()
}

/// What stands before a comment, unless that is nothing.
fn without_comment(line: &str) -> Option<String> {
    let bare = line.split('`').next()?.trim_end();
    (!bare.is_empty()).then(|| bare.to_string())
}

/// The words again and again, and space for what no character fills.
fn filled(words: &str, size: usize) -> String {
    let mut text = words.repeat(size / words.len() + 1);
    let end = (0..=size).rev().find(|at| text.is_char_boundary(*at));
    text.truncate(end.unwrap_or(0));
    text += &" ".repeat(size - text.len());
    text
}

fn comment(words: &str, size: usize) -> Vec<u8> {
    format!("`{}`5", filled(words, size - 3)).into_bytes()
}

fn short_comments(size: usize) -> Vec<u8> {
    padded("`ab` ".repeat(size / 5 - 1) + "5", size)
}

/// One Text of one segment.
fn quoted(words: &str, size: usize) -> Vec<u8> {
    format!("\"{}\"", filled(words, size - 2)).into_bytes()
}

/// One Text of one segment with escapes: the unit as often as fits, and this one.
fn escaped(unit: &str, last: &str, size: usize) -> Vec<u8> {
    let room = size - "\"\\\"".len() - last.len();
    let units = unit.repeat(room / unit.len());
    let space = " ".repeat(room % unit.len());
    format!("\"\\{space}{units}{last}\"").into_bytes()
}

fn word(size: usize) -> Vec<u8> {
    filled(WORD, size).into_bytes()
}

/// As a Nesting, whose names make no nodes.
fn short_words(size: usize) -> Vec<u8> {
    padded("::ab".repeat(size / 4), size)
}

/// A Lot of these members in turn, each of so many nodes: as many as fit, and no more
/// than there may be nodes for.
fn lot(members: &[&str], nodes: usize, size: usize) -> Vec<u8> {
    let mut text = "{".to_string();
    for member in members.iter().cycle().take((NODES_MAX - 1) / nodes) {
        if text.len() + member.len() + 2 > size {
            break;
        }
        text += &format!("{member},");
    }
    (text + "}").into_bytes()
}

/// A Tuple of values with these names in turn.
fn tuple(names: &[&str], size: usize) -> Vec<u8> {
    let mut text = "(".to_string();
    for name in names.iter().cycle().take((NODES_MAX - 1) / 2) {
        if text.len() + name.len() + 4 > size {
            break;
        }
        text += &format!("{name}:1,");
    }
    (text + ")").into_bytes()
}

/// Words with commas behind them, so many bytes or a little less.
fn words(size: usize) -> String {
    format!("{WORD},").repeat(size / (WORD.len() + 1))
}

/// Lots, each the last member of the one around it.
fn nesting(size: usize) -> Vec<u8> {
    let each = size / DEPTH_MAX;
    let open: String = (0..DEPTH_MAX)
        .map(|_| format!("{{{},", &WORD[..each.min(WORD.len() + 4) - 4]))
        .collect();
    let rest = size - open.len() - DEPTH_MAX;
    let inner = words(rest);
    padded(format!("{open}{inner}{}", "}".repeat(DEPTH_MAX)), size)
}

/// A Lot of pairs with this sign: as many as fit, or as may be with a pair around
/// it for each further bracket.
fn pairs(sign: &str, size: usize) -> Vec<u8> {
    let most = NODES_MAX / 2 - DEPTH_MAX;
    let each = (size / most).max("b<-a,".len());
    let word = "a".repeat((each - "<-,".len()) / 2);
    let members = format!("{word}{sign}{word},").repeat(most.min((size - 2) / each));
    padded(format!("{{{members}}}"), size)
}

/// As many pairs as may be, each what stands behind the sign of the one around
/// it.
fn chain(sign: &str, size: usize) -> Vec<u8> {
    let each = size / DEPTH_MAX - 1;
    let open = format!("({}{sign}", "b".repeat(each - "(<-)".len()));
    let (open, close) = (open.repeat(DEPTH_MAX), ")".repeat(DEPTH_MAX));
    padded(format!("{open}a{close}"), size)
}

/// Pairs around a Lot of pairs with this sign, which is the innermost this or
/// that.
fn deep_pairs(open: &str, close: &str, sign: &str, size: usize) -> Vec<u8> {
    let [open, close] = [open, close].map(|part| part.repeat(DEPTH_MAX - 1));
    let inner = pairs(sign, size - open.len() - close.len());
    let inner = String::from_utf8(inner).expect("pairs are UTF-8");
    padded(format!("{open}{inner}{close}"), size)
}

/// Groups around a Tuple.
fn groups(size: usize) -> Vec<u8> {
    let inner = words(size - 2 * DEPTH_MAX);
    let (open, close) = ("(".repeat(DEPTH_MAX), ")".repeat(DEPTH_MAX));
    padded(format!("{open}{inner}{close}"), size)
}

fn segments(size: usize) -> Vec<u8> {
    padded("\"frost\" ".repeat(size / 8), size)
}

fn integer(size: usize) -> Vec<u8> {
    padded("123_".repeat(size / 4 - 1) + "1234", size)
}

/// The same without a joint.
fn digits(size: usize) -> Vec<u8> {
    "9".repeat(size).into_bytes()
}

/// A literal that stands in as many groups as may be.
fn grouped_integer(size: usize) -> Vec<u8> {
    let literal = integer(size - 2 * DEPTH_MAX);
    grouped(&literal)
}

/// The text in as many groups as may be.
pub fn grouped(text: &[u8]) -> Vec<u8> {
    [&[b'('; DEPTH_MAX], text, &[b')'; DEPTH_MAX]].concat()
}

/// A mark, so much space that whole units fill the rest, and digits.
fn literal(mark: &str, unit: &str, size: usize) -> Vec<u8> {
    let room = size - mark.len();
    let space = " ".repeat(room % unit.len());
    let digits = unit.repeat(room / unit.len());
    format!("{mark}{space}{digits}").into_bytes()
}

/// As the source writes one: lines of 76 characters, indented.
fn blob_in_lines(size: usize) -> Vec<u8> {
    let line = format!("\n        {}", "RnJv".repeat(19));
    let lines = line.repeat((size - 3) / line.len());
    let space = " ".repeat(size - 3 - lines.len());
    format!("0xy{space}{lines}").into_bytes()
}
