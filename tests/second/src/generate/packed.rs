//! Pieces for the calls that give the bytes of a Blob and the bits of a Bits
//! literal: every way in which a short one may be right or wrong, long ones,
//! and literals of known value spelled at random.

use super::pieces::{damage, every, surround};
use super::random::Random;
use crate::answer::TEXT_MAX;

const BASE64: &[u8] = b"ABCDEFGHIJKLMNOPQRSTUVWXYZabcdefghijklmnopqrstuvwxyz0123456789+/";
const HEXADECIMAL: &[u8] = b"0123456789ABCDEF";
/// Characters of two groups of base 64.
const TWO_GROUPS: u32 = 8;

/// A mark, its digits, and how many of them a group has at least.
struct Base {
    mark: &'static str,
    digits: &'static [u8],
    unit: usize,
}

const fn base(mark: &'static str, digits: &'static [u8], unit: usize) -> Base {
    Base { mark, digits, unit }
}

const BITS: [Base; 3] = [
    base("0bb", b"01", 1),
    base("0bo", b"01234567", 1),
    base("0bx", HEXADECIMAL, 1),
];
const BLOBS: [Base; 3] = [
    base("0xb", b"01", 8),
    base("0xx", HEXADECIMAL, 2),
    base("0xy", BASE64, 4),
];

fn bases() -> impl Iterator<Item = &'static Base> {
    BITS.iter().chain(&BLOBS)
}

/// What joins groups; comments among it with what would be digits, joints or
/// padding outside.
const JOINTS: &[&str] = &[
    "_",
    " ",
    "\n    ",
    "\t\r",
    "``",
    "`1`",
    "`10101010`",
    "`F7`",
    " `A7_05`\n",
    "`AAAA`",
    "`=`",
    " `AA==` ",
    "`_`",
    "`_``==`\t",
    "`\u{E9}\0 0xyAAAA`",
];

/// What doesn't.
const NO_JOINTS: &[&str] = &[
    "__", "_ ", " _", "_``", "`", "` ", "-", ".", ",", "\u{B}", "\u{A0}",
];

/// Every piece that is short and tells something.
pub fn packed_pieces() -> Vec<Vec<u8>> {
    let lists = [
        marks(),
        joints(),
        values(),
        strangers(),
        paddings(),
        short(),
    ];
    lists.into_iter().flatten().collect()
}

/// Every mark, and what is nearly one, alone and with space behind.
fn marks() -> Vec<Vec<u8>> {
    let mut all = Vec::new();
    for middle in *b"bxoBX0" {
        for last in b'0'..=b'z' {
            for rear in ["", "1", "0101", "01010101", "AAAA", " ", " 0101", "_"] {
                all.push([&[b'0', middle, last], rear.as_bytes()].concat());
            }
        }
    }
    all
}

/// Two groups and three with everything between them, behind the mark, within
/// a unit and at the end; and every prefix of each.
fn joints() -> Vec<Vec<u8>> {
    let mut all = Vec::new();
    for base in bases() {
        let Base { mark, unit, .. } = *base;
        let digits: String = base
            .digits
            .iter()
            .rev()
            .cycle()
            .map(|&digit| char::from(digit))
            .take(2 * unit)
            .collect();
        let (one, two) = digits.split_at(unit);
        let (part, rest) = one.split_at(unit / 2);
        for joint in JOINTS.iter().chain(NO_JOINTS) {
            for piece in [
                format!("{mark}{joint}"),
                format!("{mark}{joint}{one}"),
                format!("{mark}{one}{joint}"),
                format!("{mark}{one}{joint}{two}"),
                format!("{mark}{joint}{one}{two}{joint}{one}{joint}{two}"),
                format!("{mark}{one}_{two}{joint}{one} {two}"),
                format!("{mark}{part}{joint}{rest}"),
                format!("{mark}{one}{joint}{part}"),
                format!("{mark}{one}{joint}{part}{joint}{rest}"),
                format!("{mark}{one}{joint}0{joint}{two}"),
            ] {
                let bytes = piece.into_bytes();
                all.extend((0..=bytes.len()).map(|length| bytes[..length].to_vec()));
            }
        }
    }
    all
}

/// Every digit at every place of a unit, and every byte of base 2 and 16.
fn values() -> Vec<Vec<u8>> {
    let mut all = Vec::new();
    for base in bases() {
        for place in 0..base.unit {
            for &digit in base.digits {
                for fill in [base.digits[0], base.digits[base.digits.len() - 1]] {
                    let mut unit = vec![fill; base.unit];
                    unit[place] = digit;
                    all.push([base.mark.as_bytes(), &unit].concat());
                }
            }
        }
    }
    for byte in 0..=255u8 {
        all.push(format!("0xb{byte:08b}").into_bytes());
        all.push(format!("0xx{byte:02X}").into_bytes());
        all.push(format!("0bb{byte:b}_{byte:08b}").into_bytes());
    }
    all
}

/// Every byte in place of a digit, the last or one before it.
fn strangers() -> Vec<Vec<u8>> {
    let mut all = Vec::new();
    for base in bases() {
        let digits = vec![base.digits[1]; 2 * base.unit];
        for byte in 0..=255 {
            for place in [0, base.unit - 1, base.unit, 2 * base.unit - 1] {
                let mut digits = digits.clone();
                digits[place] = byte;
                all.push([base.mark.as_bytes(), &digits].concat());
            }
        }
    }
    all
}

/// Base 64, in its last group all characters that may have bits left over,
/// behind no group and behind a full one; and `=` in every order, but for the
/// two groups by themselves.
pub fn paddings() -> Vec<Vec<u8>> {
    let mut all = Vec::new();
    for front in ["0xy", "0xyTWFu", "0xy TWFu_", "0xyTWE="] {
        for &a in BASE64 {
            for &b in BASE64 {
                all.push([front.as_bytes(), &[a, b], b"=="].concat());
                all.push([front.as_bytes(), &[b'T', a, b], b"="].concat());
            }
        }
    }
    let lengths = (0..=9).filter(|length| *length != TWO_GROUPS);
    all.extend(lengths.flat_map(|length| behind("0xy", every(b"AQ=", length))));
    all.extend((1..=5).flat_map(|length| behind("0xyAA", every(b"A= _`", length))));
    all
}

/// Every two groups of base 64 of `=` and of characters that have no bit, the
/// lowest or none of the lowest four: side by side, and with each joint
/// between.
pub fn two_groups() -> Vec<Vec<u8>> {
    let rows = every(b"ABQ=", TWO_GROUPS);
    let joined = |joint: &'static str| {
        rows.iter().map(move |row| {
            let (one, two) = row.split_at(row.len() / 2);
            [b"0xy", one, joint.as_bytes(), two].concat()
        })
    };
    ["", " ", "_", "`=`"].into_iter().flat_map(joined).collect()
}

/// Behind each mark everything short of two digits and joints.
fn short() -> Vec<Vec<u8>> {
    let mut all = Vec::new();
    for base in bases() {
        let [low, high] = [base.digits[0], base.digits[base.digits.len() - 1]];
        for length in 0..=6 {
            let rears = every(&[low, high, b'_', b' ', b'`'], length);
            all.extend(behind(base.mark, rears));
        }
    }
    all
}

fn behind(front: &str, rears: Vec<Vec<u8>>) -> Vec<Vec<u8>> {
    let with = |rear: Vec<u8>| [front.as_bytes(), &rear].concat();
    rears.into_iter().map(with).collect()
}

/// Pieces as long as they may be, nearly, and longer, of every base.
pub fn long_packed_pieces() -> Vec<Vec<u8>> {
    const LENGTHS: [usize; 5] = [TEXT_MAX - 1, TEXT_MAX, TEXT_MAX + 1, 65_536, 65_600];
    const REARS: [&str; 6] = ["", "AA==", "AQ==", "AAA=", "AAB=", "===="];
    let mut random = Random::new(7);
    let mut all = Vec::new();
    for base in bases() {
        for length in LENGTHS {
            for joint in ["", "_", " ", "``", "`F=_`"] {
                all.push(filled(base, length, joint, "", &mut random));
            }
            // a digit short of the unit
            let mut short = filled(base, length + 1, "", "", &mut random);
            short.pop();
            all.push(short);
            // one comment of digits
            let comment = "1".repeat(length - base.mark.len() - base.unit - 2);
            let one = "1".repeat(base.unit);
            all.push(format!("{}`{comment}`{one}", base.mark).into_bytes());
        }
    }
    for length in LENGTHS {
        all.extend(REARS.map(|rear| filled(&BLOBS[2], length, "", rear, &mut random)));
    }
    all
}

/// The mark, space, units with the joint between, and the rear: so many bytes.
fn filled(base: &Base, length: usize, joint: &str, rear: &str, random: &mut Random) -> Vec<u8> {
    let room = length - base.mark.len() - rear.len() + joint.len();
    let each = base.unit + joint.len();
    let mut piece = base.mark.as_bytes().to_vec();
    piece.extend(vec![b' '; room % each]);
    for unit in 0..room / each {
        if unit > 0 {
            piece.extend(joint.bytes());
        }
        piece.extend(digits(base, base.unit, random));
    }
    piece.extend(rear.bytes());
    piece
}

fn digits(base: &Base, count: usize, random: &mut Random) -> Vec<u8> {
    (0..count)
        .map(|_| base.digits[random.below(base.digits.len())])
        .collect()
}

/// `n` literals spelled at random, whole and damaged.
pub fn random_packed_pieces(seed: u64, n: usize) -> Vec<Vec<u8>> {
    let mut random = Random::new(seed);
    (0..n).map(|_| piece(&mut random)).collect()
}

fn piece(random: &mut Random) -> Vec<u8> {
    let mut piece = match random.below(3) {
        0 => bits_of(&bits(random), random),
        1 => blob_of(&bytes(random), random),
        _ => any(random),
    };
    match random.below(8) {
        0..=2 => (0..1 + random.below(3)).for_each(|_| damage(&mut piece, random)),
        3 => surround(&mut piece, random),
        _ => (),
    }
    piece
}

fn length(random: &mut Random) -> usize {
    let most = random.pick(&[&4, &12, &12, &80, &600]);
    random.below(*most)
}

fn bytes(random: &mut Random) -> Vec<u8> {
    (0..length(random)).map(|_| random.byte()).collect()
}

fn bits(random: &mut Random) -> Vec<u8> {
    (0..length(random)).map(|_| random.byte() & 1).collect()
}

/// Digits and padding of any base, whole units or not.
fn any(random: &mut Random) -> Vec<u8> {
    let base = match random.once_in(2) {
        true => &BLOBS[2],
        false => random.pick(&bases().collect::<Vec<_>>()),
    };
    let units = length(random) / 4;
    let left_over = random.below(base.unit + 1);
    let mut all = digits(base, units * base.unit + left_over, random);
    let padding = random.pick(&["", "", "=", "==", "===", "===="]);
    all.extend(padding.bytes());
    spelled(base, &all, random)
}

/// A Bits literal of these bits, in a base whose digits they fill.
fn bits_of(bits: &[u8], random: &mut Random) -> Vec<u8> {
    let widths: Vec<usize> = [1, 3, 4]
        .into_iter()
        .filter(|width| bits.len().is_multiple_of(*width))
        .collect();
    let width = widths[random.below(widths.len())];
    let base = match width {
        1 => &BITS[0],
        3 => &BITS[1],
        _ => &BITS[2],
    };
    let digit = |bits: &[u8]| {
        let number = bits.iter().fold(0, |sum, bit| 2 * sum + usize::from(*bit));
        base.digits[number]
    };
    let digits: Vec<u8> = bits.chunks(width).map(digit).collect();
    spelled(base, &digits, random)
}

/// A Blob literal of these bytes.
fn blob_of(bytes: &[u8], random: &mut Random) -> Vec<u8> {
    let which = random.below(3);
    let digits: Vec<u8> = match which {
        0 => bytes
            .iter()
            .map(|byte| format!("{byte:08b}"))
            .collect::<String>()
            .into_bytes(),
        1 => bytes
            .iter()
            .map(|byte| format!("{byte:02X}"))
            .collect::<String>()
            .into_bytes(),
        _ => bytes.chunks(3).flat_map(group).collect(),
    };
    spelled(&BLOBS[which], &digits, random)
}

/// One to three bytes as four characters of base 64.
fn group(bytes: &[u8]) -> [u8; 4] {
    let number = (0..3).fold(0, |sum, place| {
        sum << 8 | bytes.get(place).map_or(0, |byte| usize::from(*byte))
    });
    let character = |place: usize| match place <= bytes.len() {
        true => BASE64[number >> (18 - 6 * place) & 63],
        false => b'=',
    };
    [0, 1, 2, 3].map(character)
}

/// Mark and digits, joined between units, now seldom and now often.
fn spelled(base: &Base, digits: &[u8], random: &mut Random) -> Vec<u8> {
    let mut piece = base.mark.to_string();
    if !digits.is_empty() && random.once_in(3) {
        // a joint that is dividing space
        piece += JOINTS[1 + random.below(JOINTS.len() - 1)];
    }
    let mut piece = piece.into_bytes();
    let seldom = 1 + random.below(16);
    for (index, unit) in digits.chunks(base.unit).enumerate() {
        if index > 0 && random.once_in(seldom) {
            piece.extend(random.pick(JOINTS).bytes());
        }
        piece.extend(unit);
    }
    piece
}

#[cfg(test)]
mod tests {
    use super::*;
    use crate::answer::Answer;
    use crate::value;

    fn gives(call: fn(&[u8], &mut [u8]) -> Answer, piece: &[u8], want: &[u8]) {
        let mut buffer = vec![0xA5; want.len()];
        let answer = call(piece, &mut buffer);
        let shown = String::from_utf8_lossy(piece);
        assert_eq!(answer, Answer::accepted(piece.len(), want.len()), "{shown}");
        assert_eq!(buffer, want, "{shown}");
    }

    #[test]
    fn bits_and_blobs_have_what_they_were_made_of() {
        let mut random = Random::new(3);
        for _ in 0..8_000 {
            let bits = bits(&mut random);
            gives(value::bits, &bits_of(&bits, &mut random), &bits);
            let bytes = bytes(&mut random);
            gives(value::blob, &blob_of(&bytes, &mut random), &bytes);
        }
    }

    #[test]
    fn the_same_seed_gives_the_same_pieces() {
        assert_eq!(random_packed_pieces(1, 300), random_packed_pieces(1, 300));
        assert_ne!(random_packed_pieces(1, 300), random_packed_pieces(2, 300));
    }

    /// Of the 64 x 64 endings with `==` those whose second character leaves
    /// four zero bits are encodings, of those with `=` those whose third
    /// leaves two.
    #[test]
    fn endings() {
        let sound = |front: &str, rear: &str| {
            let endings = every(BASE64, 2);
            let pieces = endings
                .iter()
                .map(|ending| [front.as_bytes(), ending, rear.as_bytes()].concat());
            pieces
                .filter(|piece| value::blob(piece, &mut [0; 8]).number == 0)
                .count()
        };
        assert_eq!(sound("0xy", "=="), 64 * 4);
        assert_eq!(sound("0xyT", "="), 64 * 16);
    }

    /// All of them are Blobs.  Those are encodings whose first group has no
    /// `=`, and whose second has none, or one or two behind `A` or `Q`.
    #[test]
    fn every_two_groups() {
        let all = two_groups();
        assert_eq!(all.len(), 4 * 65_536);
        let mut met = [0; 12];
        for text in &all {
            met[value::blob(text, &mut [0; 6]).number as usize] += 1;
        }
        let sound = 4 * 81 * (81 + 3 * 3 * 2 + 3 * 2);
        assert_eq!((met[0], met[5]), (sound, all.len() - sound));
    }

    /// The longest pieces are as long as they should be, and those of whole
    /// units are refused for their length alone.
    #[test]
    fn long_ones() {
        let mut random = Random::new(1);
        for base in bases() {
            for joint in ["", "_", "`F=_`"] {
                for length in [TEXT_MAX, TEXT_MAX + 1] {
                    let piece = filled(base, length, joint, "", &mut random);
                    assert_eq!(piece.len(), length);
                    let numbers =
                        [value::bits, value::blob].map(|call| call(&piece, &mut []).number);
                    match length > TEXT_MAX {
                        true => assert_eq!(numbers, [2, 2]),
                        false => assert!(numbers == [8, 9] || numbers == [9, 8], "{numbers:?}"),
                    }
                }
            }
        }
    }
}
