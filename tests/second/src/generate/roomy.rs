//! Texts that are rich in dividing space.

use super::forms::gaps;
use super::random::Random;
use super::space::space;

/// Dividing space may stand for each `~`: inside literals, between segments, and
/// between tokens.
const ROOMY: &[&str] = &[
    "5",
    "1~2",
    "-~1~2_3~4",
    "+~0d~1~0",
    "0b~1~0",
    "0o~7~7_7",
    "-~0x~F~F",
    "1~2~/~3~*~2~^~-~6",
    "-~0x~A~0~/~0b~1~1~*~0o~7~^~+~0d~2~0",
    "1~.~5",
    "1~2~.~5~0~*~1~0~^~2~0",
    "9~2_2~3~3~7~2_0~3~6_8~5~4_7~7~5_8~0~8",
    "0bb~1~0_1",
    "0bo~7~0",
    "0bx~F~A_0",
    "0xb~10101010~00000001_11111111",
    "0xx~A7~05_FF",
    "0xy~TWFu~AAAA_TWE=",
    "0xy~AQ==",
    "\"a\"~\"b\"",
    "\"a b\"~\"\\\\n\\q\"~\"\"~\"  \"",
    "\"\u{E9} \"~\"\\\\<0c65> \"",
    "::~a~::~\"b\"~\"c\"~::~0c65",
    "{~}",
    "{~,~}",
    "{~,~,~}",
    "{~0bb~,~0xx~,~0xy~,~0bx~}",
    "{~a~,~\"b\"~\"c\"~:~1~2~,~3~/~4~->~-~5~,~}",
    "{~1~,~2~3~,~4~.~5~,~{~}~}",
    "(~)",
    "(~1~2~)",
    "(~x~:~y~)",
    "(~x~:~::~y~)",
    "(~5~->~-~6~)",
    "(~\"a\"~\"b\"~,~)",
    "(~,~x~:~(~5~)~)",
    "(~::~a~::~b~:~1~,~y~:~2~,~3~)",
    "(~Set~,~x~)",
    "(~\"Set\"~:~x~)",
    "(~Array~:~{~a~:~2~0~,~b~}~)",
    "(~Set~:~{~a~:~0bTRUE~,~\"b\"~\"c\"~:~0bFALSE~}~)",
    "(~Bag~:~{~,~0sIGNORANCE~:~0x~F~F~,~}~)",
    "[~]",
    "[~1~2~]",
    "[~1~..~1~0~]",
    "[~1~.~5~<=*<~0x~F~]",
    "[~a~<*~]",
    "[~*<=~\"b\"~\"c\"~]",
    "[~*~]",
];

const FRONTS: [&str; 6] = [
    "",
    "\u{FEFF}",
    "#!x\n",
    "#! `\"\n",
    "\u{FEFF}#!\n",
    "\u{FEFF}#!`\r\n",
];

/// Each of them behind each front, with and without space at both ends.
pub fn roomy_texts(random: &mut Random) -> Vec<Vec<u8>> {
    let mut all = Vec::new();
    for front in FRONTS {
        for (before, behind) in [("", ""), ("~", ""), ("", "~"), ("~", "~")] {
            for roomy in ROOMY {
                let pattern = format!("{front}{before}{roomy}{behind}");
                all.push(with_space(pattern.as_bytes(), random));
            }
        }
    }
    all
}

fn with_space(pattern: &[u8], random: &mut Random) -> Vec<u8> {
    let mut text = Vec::new();
    for &byte in pattern {
        match byte {
            b'~' => text.extend(space(random)),
            _ => text.push(byte),
        }
    }
    text
}

/// The text with space in front of some of its tokens or at its end.
pub fn spread(text: &[u8], random: &mut Random) -> Vec<u8> {
    let mut other = text.to_vec();
    for at in gaps(text).into_iter().rev() {
        if random.once_in(2) {
            other.splice(at..at, space(random));
        }
    }
    other
}

#[cfg(test)]
mod tests {
    use super::{roomy_texts, spread, Random, FRONTS, ROOMY};
    use crate::layout::stretches;
    use crate::tree;

    fn nodes(text: &[u8]) -> Option<usize> {
        let answer = tree::read(2, text, &mut [0; 70]);
        (answer.number == 0).then_some(answer.count)
    }

    #[test]
    fn roomy_texts_are_accepted_and_have_room() {
        let mut random = Random::new(4);
        let texts = roomy_texts(&mut random);
        assert_eq!(texts.len(), 4 * FRONTS.len() * ROOMY.len());
        for text in texts {
            assert!(nodes(&text).is_some(), "{}", text.escape_ascii());
            let other = spread(&text, &mut random);
            assert_eq!(nodes(&other), nodes(&text), "{}", other.escape_ascii());
            assert!(stretches(&other).len() >= stretches(&text).len());
        }
    }
}
