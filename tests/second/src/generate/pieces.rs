//! Pieces for the value calls: literals of known value spelled at random,
//! tokens cut from texts, and both with damage.

use super::long::long_texts;
use super::random::Random;
use super::{grammar, noise, MISCHIEF};
use crate::answer::TEXT_MAX;
use crate::samples::{self, readings};
use crate::token::{self, Lexed};

/// A mark and its base.
type Mark = (&'static str, usize);

const NUMBER_MARKS: [Mark; 5] = [("", 10), ("0b", 2), ("0o", 8), ("0d", 10), ("0x", 16)];
const CODE_POINT_MARKS: [Mark; 5] = [("0c", 10), ("0cb", 2), ("0co", 8), ("0cd", 10), ("0cx", 16)];
const DIGITS: &[u8] = b"0123456789ABCDEF";

/// `n` pieces: literals of both kinds, other tokens and noise.
pub fn pieces(seed: u64, n: usize) -> Vec<Vec<u8>> {
    let mut random = Random::new(seed);
    (0..n).map(|_| piece(&mut random)).collect()
}

fn piece(random: &mut Random) -> Vec<u8> {
    let mut piece = literal(random);
    match random.below(8) {
        0..=2 => (0..1 + random.below(3)).for_each(|_| damage(&mut piece, random)),
        3 => surround(&mut piece, random),
        _ => (),
    }
    piece
}

fn literal(random: &mut Random) -> Vec<u8> {
    match random.below(16) {
        0..=2 => integer_of(random.once_in(2), magnitude(random), random).into_bytes(),
        3 => any_integer(random),
        4 | 5 => word(random),
        6 | 7 => code_point_of(code(random), random).into_bytes(),
        8..=12 => quoted(random),
        13 => cut(random),
        14 => noise::text(random),
        _ => (0..random.below(12)).map(|_| random.byte()).collect(),
    }
}

pub fn damage(piece: &mut Vec<u8>, random: &mut Random) {
    let at = random.below(piece.len() + 1);
    match random.below(4) {
        0 => piece.truncate(at),
        1 => drop(piece.drain(..at)),
        2 => insert(piece, &noise::piece(random, true), random),
        _ => piece.iter_mut().skip(at).take(1).for_each(|byte| {
            *byte ^= 1 << random.below(8);
        }),
    }
}

fn insert(piece: &mut Vec<u8>, bytes: &[u8], random: &mut Random) {
    let at = random.below(piece.len() + 1);
    piece.splice(at..at, bytes.iter().copied());
}

/// What a reader of texts skips or reads beside a literal.
pub fn surround(piece: &mut Vec<u8>, random: &mut Random) {
    const FRONTS: &[&str] = &[
        "", "", " ", "\t", "`c`", "\u{FEFF}", "#!x\n", "(", "::", "-", "+ ", "0", "\"\"",
    ];
    const REARS: &[&str] = &[
        "", " ", "\n", "`c`", "`", "_", ")", ".", ".5", "/2", "*2^3", "0", "\"", "\"\"", "\0",
    ];
    piece.splice(0..0, random.pick(FRONTS).bytes());
    piece.extend(random.pick(REARS).bytes());
}

/// Dividing space or none, some of it with what would be digits or quotes
/// outside a comment.
pub fn space(random: &mut Random) -> &'static str {
    random.pick(&[
        "",
        "",
        "",
        " ",
        "\n    ",
        "\t\r",
        "``",
        "`9`",
        " `0x1_F`\n",
        "`\"` `\u{E9}\0`",
    ])
}

/// Mostly none; now and then more than a number of 64 bits has digits.
fn zeros(random: &mut Random) -> String {
    let most = match random.below(24) {
        0 => 300,
        1..=5 => 4,
        _ => 1,
    };
    "0".repeat(random.below(most))
}

fn digits(number: u128, base: usize) -> String {
    match base {
        2 => format!("{number:b}"),
        8 => format!("{number:o}"),
        10 => number.to_string(),
        _ => format!("{number:X}"),
    }
}

/// Near a bound of 64 bits, a number that seems small without its upper
/// bits, or of any length.
fn magnitude(random: &mut Random) -> u128 {
    const BOUNDS: [u32; 8] = [63, 63, 63, 63, 64, 65, 96, 126];
    let number = u128::from(random.number());
    let near = match random.below(8) {
        0..=3 => 1 << BOUNDS[random.below(BOUNDS.len())],
        4 => number << 64 | number >> random.below(64),
        _ => number >> random.below(64),
    };
    let far = random.pick(&[&0, &1, &2, &3, &9]);
    match random.once_in(2) {
        true => near.saturating_add(*far),
        false => near.saturating_sub(*far),
    }
}

/// An Integer literal of this number.
fn integer_of(negative: bool, magnitude: u128, random: &mut Random) -> String {
    let (mark, base) = NUMBER_MARKS[random.below(5)];
    let all = zeros(random) + &digits(magnitude, base);
    let sign = match negative {
        true => "-",
        false => random.pick(&["", "", "+"]),
    };
    integer(sign, mark, &all, random)
}

/// Some hundred digits; now and then one that is none of the base.
fn any_integer(random: &mut Random) -> Vec<u8> {
    let (mark, base) = NUMBER_MARKS[random.below(5)];
    let alphabet = match random.once_in(16) {
        true => DIGITS,
        false => &DIGITS[..base],
    };
    let most = random.pick(&[&8, &24, &72, &400]);
    let all: String = (0..1 + random.below(*most))
        .map(|_| char::from(alphabet[random.below(alphabet.len())]))
        .collect();
    let sign = random.pick(&["", "+", "-"]);
    integer(sign, mark, &all, random).into_bytes()
}

/// The digits in groups, joined now seldom and now often.
fn integer(sign: &str, mark: &str, digits: &str, random: &mut Random) -> String {
    const JOINERS: &[&str] = &[
        "_",
        "_",
        "_",
        " ",
        "\n    ",
        "``",
        "`9`",
        " `12_3`\n",
        "`7``\u{E9} 0xF`\t",
    ];
    let mut piece = String::new();
    for part in [sign, mark] {
        piece += part;
        if !part.is_empty() {
            piece += space(random);
        }
    }
    let seldom = 1 + random.below(32);
    for (index, digit) in digits.chars().enumerate() {
        if index > 0 && random.once_in(seldom) {
            piece += random.pick(JOINERS);
        }
        piece.push(digit);
    }
    piece
}

fn word(random: &mut Random) -> Vec<u8> {
    const LETTERS: &[u8] = b"ABCXYZabcxyz_0189";
    if random.once_in(4) {
        return random
            .pick(&["Array", "Tuple_Bag", "_", "TRUE", "x0b1", "L"])
            .into();
    }
    let most = random.pick(&[&6, &6, &300]);
    (0..1 + random.below(*most))
        .map(|_| LETTERS[random.below(LETTERS.len())])
        .collect()
}

/// The number of a code point, most of them good.
fn code(random: &mut Random) -> u128 {
    const BAD: [u128; 9] = [
        0xD800,
        0xDBFF,
        0xDC00,
        0xDFFF,
        0x11_0000,
        0x20_0041,
        0x1_0000_0041,
        0x1_0000_0000_0000_0041,
        u128::MAX,
    ];
    match random.below(8) {
        0 => BAD[random.below(BAD.len())],
        1 => random.below(0x12_0000) as u128,
        _ => u128::from(u32::from(character(random))),
    }
}

pub fn code_point_of(code: u128, random: &mut Random) -> String {
    let (mark, base) = CODE_POINT_MARKS[random.below(5)];
    mark.to_string() + &zeros(random) + &digits(code, base)
}

/// Mostly one at the bounds of a spelling or of what quotes may hold.
pub fn character(random: &mut Random) -> char {
    const EDGES: &[char] = &[
        '"',
        '`',
        '\\',
        '\t',
        '\n',
        '\r',
        '\0',
        '\u{1F}',
        ' ',
        '\u{7E}',
        '\u{7F}',
        '\u{80}',
        '\u{9F}',
        '\u{A0}',
        '\u{7FF}',
        '\u{800}',
        '\u{D7FF}',
        '\u{E000}',
        '\u{FEFF}',
        '\u{FFFF}',
        '\u{1_0000}',
        '\u{10_FFFF}',
    ];
    match random.below(4) {
        0 => EDGES[random.below(EDGES.len())],
        1 => char::from_u32(random.below(0x11_0000) as u32).unwrap_or('<'),
        _ => char::from(b' ' + random.below(95) as u8),
    }
}

fn characters(random: &mut Random) -> Vec<char> {
    let most = random.pick(&[&4, &8, &8, &8, &120]);
    (0..random.below(*most))
        .map(|_| character(random))
        .collect()
}

/// A quoted text, now and then with something put into it that means one
/// thing in an escaped segment and another, or nothing, elsewhere.
fn quoted(random: &mut Random) -> Vec<u8> {
    const FAULTS: &[&str] = &[
        "\\",
        "\\\\",
        "\\x",
        "\\Q",
        "\\<",
        "\\<0c>",
        "\\<0c65",
        "\\<65>",
        "\\<0c 65>",
        "\\<0c6_5>",
        "\\<0cxe9>",
        "\\<0cb2>",
        "\"",
        "\"\"",
        "\"\\\"",
        "\"x\"",
        "`",
        "`c`",
        "\n",
        "\u{1}",
        "\u{85}",
    ];
    let mut piece = quoted_of(&characters(random), random).into_bytes();
    match random.below(6) {
        0 => insert(&mut piece, random.pick(FAULTS).as_bytes(), random),
        1 => {
            let code_point = code_point_of(code(random), random);
            insert(&mut piece, format!("\\<{code_point}>").as_bytes(), random);
        }
        _ => (),
    }
    piece
}

/// A quoted text of these characters, in one or more segments.
fn quoted_of(characters: &[char], random: &mut Random) -> String {
    let mut piece = String::new();
    let mut rest = characters;
    loop {
        let length = match random.once_in(3) {
            true => random.below(rest.len() + 1),
            false => rest.len(),
        };
        let (now, later) = rest.split_at(length);
        segment(now, &mut piece, random);
        if later.is_empty() && !random.once_in(8) {
            return piece;
        }
        piece += space(random);
        rest = later;
    }
}

fn segment(characters: &[char], piece: &mut String, random: &mut Random) {
    let needs_escapes = characters.first() == Some(&'\\') || characters.iter().any(barred);
    piece.push('"');
    if needs_escapes || random.once_in(2) {
        piece.push('\\');
        for &character in characters {
            escaped(character, piece, random);
        }
    } else {
        piece.extend(characters);
    }
    piece.push('"');
}

/// Whether it may not stand for itself inside quotes.
fn barred(character: &char) -> bool {
    matches!(character, '\0'..='\u{1F}' | '"' | '`' | '\u{80}'..='\u{9F}')
}

fn escaped(character: char, piece: &mut String, random: &mut Random) {
    let letter = match character {
        '"' => Some("\\q"),
        '`' => Some("\\g"),
        '\\' => Some("\\b"),
        '\t' => Some("\\t"),
        '\n' => Some("\\n"),
        '\r' => Some("\\r"),
        _ => None,
    };
    match letter {
        Some(letter) if !random.once_in(4) => piece.push_str(letter),
        None if !barred(&character) && !random.once_in(8) => piece.push(character),
        _ => {
            let code_point = code_point_of(u128::from(u32::from(character)), random);
            *piece += &format!("\\<{code_point}>");
        }
    }
}

/// A token of a text made by the grammar: a literal of any kind, or a symbol.
fn cut(random: &mut Random) -> Vec<u8> {
    let text = grammar::text(random, MISCHIEF).text;
    let all = tokens(&text);
    match all.len() {
        0 => text,
        count => all[random.below(count)].to_vec(),
    }
}

/// The tokens of a text; where none starts, the next byte is tried.
fn tokens(text: &[u8]) -> Vec<&[u8]> {
    let mut found = Vec::new();
    let mut place = 0;
    loop {
        place = match token::next(text, place) {
            Lexed::Token(token) => {
                found.push(&text[token.first..token.end]);
                token.end
            }
            Lexed::NoToken(place) => place + 1,
            Lexed::End(_) => return found,
        };
    }
}

/// The papers' pieces, the samples and their tokens where they stand, and
/// every prefix of each token and of each of the papers' pieces.
pub fn sample_pieces() -> Vec<&'static [u8]> {
    let texts: Vec<&'static [u8]> = samples::all().iter().map(|sample| sample.text).collect();
    let mut all: Vec<&'static [u8]> = texts.iter().flat_map(|text| tokens(text)).collect();
    all.extend(readings::INTEGERS.iter().map(|call| call.0));
    for calls in [readings::TEXTS, readings::BLOBS, readings::BITS] {
        all.extend(calls.iter().map(|call| call.0));
    }
    let prefixes = |piece: &'static [u8]| (0..=piece.len()).map(|length| &piece[..length]);
    let mut all: Vec<&'static [u8]> = all.into_iter().flat_map(prefixes).collect();
    all.extend(texts);
    all
}

/// Every piece of at most two bytes, and every one of three or four bytes
/// that mean something in a literal.
pub fn short_pieces() -> Vec<Vec<u8>> {
    const MEANING: &[u8] = b"019AFbcdoxn_+-\"\\<> `./";
    let bytes: Vec<u8> = (0..=255).collect();
    [
        every(&bytes, 0),
        every(&bytes, 1),
        every(&bytes, 2),
        every(MEANING, 3),
        every(MEANING, 4),
    ]
    .concat()
}

/// Every piece of this length over the alphabet.
pub fn every(alphabet: &[u8], length: u32) -> Vec<Vec<u8>> {
    let count = alphabet.len();
    (0..count.pow(length))
        .map(|index| {
            let figure = |place| alphabet[index / count.pow(place) % count];
            (0..length).map(figure).collect()
        })
        .collect()
}

/// Front, a byte that fills, rear.
type Shape = (&'static [u8], u8, &'static [u8]);

const SHAPES: &[Shape] = &[
    (b"", b'0', b"7"),
    (b"-", b'0', b"9223372036854775808"),
    (b"+", b'0', b"9223372036854775808"),
    (b"", b'9', b""),
    (b"-0x", b'F', b""),
    (b"0b1", b'0', b""),
    (b"0o", b'0', b"1_7"),
    (b"0d", b' ', b"12"),
    (b"1`", b'5', b"`2"),
    (b"-", b'\n', b"5"),
    (b"5", b' ', b""),
    (b"1/", b'0', b"1"),
    (b"", b'a', b""),
    (b"", b'a', b" "),
    (b"", b'a', b"\xC3\xA9"),
    (b"", b'a', b"\xFF"),
    (b"\"", b'a', b"\""),
    (b"\"", b'a', b"\xF4\x8F\xBF\xBF\""),
    (b"\"", b'a', b"\x01\""),
    (b"\"", b'a', b"\xC3\""),
    (b"\"", b'a', b""),
    (b"\"-", b'\\', b"\""),
    (b"\"\\", b'a', b"\\n\""),
    (b"\"\\", b'a', b"\\<0cxD800>\""),
    (b"\"\\", b'\\', b"\""),
    (b"\"a\"`", b'5', b"`\"b\""),
    (b"\"\\\\<0cx", b'0', b"263A>\""),
    (b"\"\\\\<0cx", b'F', b">\""),
    (b"0c", b'0', b"65"),
    (b"0cx", b'0', b"D800"),
    (b"0cb", b'1', b""),
    (b"", b'\xFF', b""),
];

/// Pieces as long as they may be, nearly, and longer.
pub fn long_pieces() -> Vec<Vec<u8>> {
    const LENGTHS: [usize; 5] = [TEXT_MAX - 1, TEXT_MAX, TEXT_MAX + 1, 65_536, 65_600];
    let filled = |&(front, fill, rear): &Shape, length: usize| {
        let room = length - front.len() - rear.len();
        [front, &vec![fill; room], rear].concat()
    };
    let mut all = long_texts();
    for shape in SHAPES {
        all.extend(LENGTHS.map(|length| filled(shape, length)));
    }
    all
}

#[cfg(test)]
mod tests {
    use super::*;
    use crate::answer::{BAD_VALUE, OUT_OF_RANGE};
    use crate::value;

    #[test]
    fn the_same_seed_gives_the_same_pieces() {
        assert_eq!(pieces(1, 300), pieces(1, 300));
        assert_ne!(pieces(1, 300), pieces(2, 300));
    }

    #[test]
    fn integers_have_the_number_they_were_made_of() {
        let mut random = Random::new(3);
        for _ in 0..8_000 {
            let (negative, magnitude) = (random.once_in(2), magnitude(&mut random));
            let piece = integer_of(negative, magnitude, &mut random);
            let answer = value::integer(piece.as_bytes());
            let inside = match negative {
                true => magnitude <= 1 << 63,
                false => magnitude < 1 << 63,
            };
            if inside {
                let number = match negative {
                    true => -(magnitude as i128),
                    false => magnitude as i128,
                };
                assert_eq!(answer.number, 0, "{piece}");
                assert_eq!(i128::from(answer.value), number, "{piece}");
            } else {
                assert_eq!((answer.number, answer.value), (OUT_OF_RANGE, 0), "{piece}");
            }
        }
    }

    #[test]
    fn quoted_texts_have_the_characters_they_were_made_of() {
        let mut random = Random::new(4);
        for _ in 0..8_000 {
            let characters = characters(&mut random);
            let piece = quoted_of(&characters, &mut random);
            let want: String = characters.iter().collect();
            let mut buffer = vec![0; want.len()];
            let answer = value::text(piece.as_bytes(), &mut buffer);
            assert_eq!((answer.number, answer.count), (0, want.len()), "{piece}");
            assert_eq!(buffer, want.as_bytes(), "{piece}");
        }
    }

    #[test]
    fn code_points_have_the_character_they_were_made_of() {
        let mut random = Random::new(6);
        for _ in 0..4_000 {
            let code = code(&mut random);
            let piece = code_point_of(code, &mut random);
            let want = u32::try_from(code).ok().and_then(char::from_u32);
            let mut buffer = [0; 4];
            let answer = value::text(piece.as_bytes(), &mut buffer);
            match want {
                Some(character) => {
                    let want = character.to_string().into_bytes();
                    assert_eq!((answer.number, answer.count), (0, want.len()), "{piece}");
                    assert_eq!(buffer[..want.len()], want, "{piece}");
                }
                None => assert_eq!(answer.number, BAD_VALUE, "{piece}"),
            }
        }
    }
}
