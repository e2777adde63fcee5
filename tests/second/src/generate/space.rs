//! Dividing space, never empty.

use super::encoded::{BAD, LONGER};
use super::random::Random;

const BLANKS: [u8; 4] = *b"\t\n\r ";

/// What would be read as something else outside of a comment.
const CONTENTS: &[&str] = &[
    "",
    "c",
    "\"",
    "\"a b\"",
    "#!",
    "#!x\n",
    "(",
    ")}]",
    ",",
    "0L",
    "_",
    "5",
    "12",
    "\n",
    " ",
    "\r\n\t",
    "\\",
    "\\<0cxD800>",
    "<-",
    "->",
    ".",
    "::",
    "=",
    "\0",
    "\u{7F}",
    "\u{85}",
    "\u{FEFF}",
];

/// UTF-8, as all that stands here but what is spoiled.
pub fn space(random: &mut Random) -> Vec<u8> {
    match random.below(8) {
        0 | 1 => vec![blank(random)],
        2 => {
            let length = 2 + random.below(30);
            (0..length).map(|_| blank(random)).collect()
        }
        3 | 4 => comment(random),
        5 => [comment(random), comment(random), comment(random)].concat(),
        6 => [vec![blank(random)], comment(random), vec![blank(random)]].concat(),
        _ => [comment(random), vec![blank(random)], comment(random)].concat(),
    }
}

/// With bytes in a comment that are not UTF-8.
pub fn spoiled(random: &mut Random) -> Vec<u8> {
    let bad = random.pick(&BAD);
    let comment = [b"`", &content(random)[..], bad, &content(random), b"`"].concat();
    match random.below(3) {
        0 => comment,
        1 => [space(random), comment].concat(),
        _ => [comment, space(random)].concat(),
    }
}

/// So many bytes: one comment or short ones again and again, and blanks for what
/// is left.
pub fn filled(length: usize, random: &mut Random) -> Vec<u8> {
    let mut full = match random.once_in(2) && length > 1 {
        true => {
            let unit = random.pick(&LONGER);
            [b"`", &unit.repeat((length - 2) / unit.len())[..], b"`"].concat()
        }
        false => {
            let unit = space(random);
            unit.repeat(length / unit.len())
        }
    };
    full.resize_with(length, || blank(random));
    full
}

pub fn blank(random: &mut Random) -> u8 {
    BLANKS[random.below(BLANKS.len())]
}

fn comment(random: &mut Random) -> Vec<u8> {
    [b"`", &content(random)[..], b"`"].concat()
}

/// No grave accent is in it.
fn content(random: &mut Random) -> Vec<u8> {
    let mut content = Vec::new();
    for _ in 0..random.below(4) {
        content.extend(match random.once_in(4) {
            true => random.pick(&LONGER),
            false => random.pick(CONTENTS).as_bytes(),
        });
    }
    content
}

#[cfg(test)]
mod tests {
    use super::{filled, space, spoiled, Random};
    use crate::space::skip;
    use crate::utf8::first_bad;

    fn is_space(bytes: &[u8]) -> bool {
        !bytes.is_empty() && skip(bytes, 0) == bytes.len()
    }

    #[test]
    fn all_of_it_is_dividing_space() {
        let mut random = Random::new(9);
        for length in 1..3_000 {
            let (one, bad) = (space(&mut random), spoiled(&mut random));
            let full = filled(length, &mut random);
            assert!(is_space(&one) && is_space(&bad) && is_space(&full));
            assert_eq!((first_bad(&one), first_bad(&full)), (one.len(), length));
            assert!(first_bad(&bad) < bad.len(), "{}", bad.escape_ascii());
        }
    }
}
