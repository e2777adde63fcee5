//! Deterministic pseudo-random texts.

mod arrows;
mod bytes;
mod damage;
mod encoded;
mod escapes;
mod flip;
mod forms;
mod grammar;
mod layouts;
mod long;
mod misses;
mod noise;
mod packed;
mod pieces;
mod random;
mod roomy;
mod rows;
mod space;

pub use arrows::{arrow_rows, arrow_texts};
pub use bytes::random_bytes;
pub use encoded::{around, encoded_texts, BAD, LONGER, RUN_MAX};
pub use escapes::{escape_pieces, escape_rows, escape_texts, random_escape_pieces};
pub use flip::flipped;
pub use forms::{commented, deep_forms, gaps, head_forms, sized_forms};
pub use grammar::Made;
use grammar::Mischief;
pub use layouts::{laid, laid_short, spoiled_one, stretched_to, Choice};
pub use long::{long_shapes, long_texts, Shape};
pub use misses::MISSES;
pub use packed::{long_packed_pieces, packed_pieces, paddings, random_packed_pieces, two_groups};
pub use pieces::{every, long_pieces, pieces, sample_pieces, short_pieces};
pub use random::Random;
pub use roomy::{roomy_texts, spread};
pub use rows::{framed, row, row_texts, FRAMES};
pub use space::space;

/// A few arrows, so that most texts are read beyond them.
const MISCHIEF: Mischief = Mischief {
    bad: true,
    arrows: Some(12),
};
const NONE: Mischief = Mischief {
    bad: false,
    arrows: None,
};
/// Many arrows, and nothing else that is refused.
const ARROWS: Mischief = Mischief {
    bad: false,
    arrows: Some(2),
};

/// `n` texts of three families in turn: noise, grammar-made, damaged.
pub fn texts(seed: u64, n: usize) -> Vec<Vec<u8>> {
    let mut random = Random::new(seed);
    (0..n)
        .map(|index| match index % 3 {
            0 => noise::text(&mut random),
            1 => grammar::text(&mut random, MISCHIEF).text,
            _ => damage::text(&mut random),
        })
        .collect()
}

/// `n` texts of level 2, without bad values, newer forms and arrows.
pub fn good_texts(seed: u64, n: usize) -> Vec<Made> {
    let mut random = Random::new(seed);
    (0..n).map(|_| grammar::text(&mut random, NONE)).collect()
}

/// `n` texts that are good by the old rules: as before, but with arrows.
pub fn old_texts(seed: u64, n: usize) -> Vec<Made> {
    let mut random = Random::new(seed);
    (0..n).map(|_| grammar::text(&mut random, ARROWS)).collect()
}

#[cfg(test)]
mod tests {
    use super::{
        arrow_rows, arrow_texts, flipped, good_texts, old_texts, random_bytes, texts, Made, Random,
    };
    use crate::answer::{Answer, NODES_MAX, NODE_WORDS, RETIRED_ARROW, TEXT_MAX};
    use crate::tree::{self, Rules};

    #[test]
    fn the_same_seed_gives_the_same_texts() {
        assert_eq!(texts(1, 300), texts(1, 300));
        assert_ne!(texts(1, 300), texts(2, 300));
    }

    #[test]
    fn random_bytes_are_as_many_as_asked_and_of_every_value() {
        let all = random_bytes(3, 100_000);
        assert_eq!(all, random_bytes(3, 100_000));
        let mut met = [false; 256];
        let mut total = 0;
        for text in all {
            assert!(text.len() <= TEXT_MAX);
            total += text.len();
            text.iter().for_each(|byte| met[*byte as usize] = true);
        }
        assert!((100_000..100_000 + TEXT_MAX).contains(&total));
        assert_eq!(met, [true; 256]);
    }

    #[test]
    fn a_flipped_text_differs_in_one_bit() {
        for (text, times) in [(&b"(x:y)"[..], 40), (&[b'a'; 64], 512), (&[b'a'; 65], 512)] {
            let flips = flipped(text, &mut Random::new(1));
            assert_eq!(flips.len(), times);
            for flip in flips {
                let bits: u32 = text
                    .iter()
                    .zip(&flip)
                    .map(|(a, b)| (a ^ b).count_ones())
                    .sum();
                assert_eq!((bits, flip.len()), (1, text.len()));
            }
        }
    }

    /// Read with the nodes it was made of.
    fn is_good(rules: Rules, made: &Made) {
        let mut table = [0; NODES_MAX * NODE_WORDS];
        let answer = tree::read_by(rules, 2, &made.text, &mut table);
        let want = Answer::accepted(made.text.len(), made.nodes);
        assert_eq!(answer, want, "{}", String::from_utf8_lossy(&made.text));
    }

    #[test]
    fn good_texts_are_accepted_with_the_nodes_they_were_made_of() {
        for made in good_texts(11, 4_000) {
            is_good(Rules::Today, &made);
            is_good(Rules::Old, &made);
        }
    }

    /// So are old ones by the old rules, and many of them only by these.
    #[test]
    fn old_texts_are_accepted_by_the_old_rules() {
        let mut retired = 0;
        for made in old_texts(12, 4_000) {
            is_good(Rules::Old, &made);
            let today = tree::read(2, &made.text, &mut []).number;
            retired += usize::from(today == RETIRED_ARROW);
        }
        assert!(retired > 500, "{retired}");
    }

    /// Arrows are met where they may stand, with every answer by the old rules
    /// behind them; and in the wrong place, with every other answer.
    #[test]
    fn arrows_are_met_before_and_behind_every_refusal() {
        let (mut today, mut old) = ([0; 16], [0; 16]);
        for text in arrow_texts(6, 6_000).into_iter().chain(arrow_rows()) {
            let mut table = [0; NODES_MAX * NODE_WORDS];
            let answer = tree::read(2, &text, &mut table);
            today[answer.number as usize] += 1;
            if answer.number == RETIRED_ARROW {
                let answer = tree::read_by(Rules::Old, 2, &text, &mut table);
                old[answer.number as usize] += 1;
            }
        }
        for number in [0, 4, 5, 6, 7, 11] {
            assert!(today[number] > 0 && old[number] > 0, "{number}");
        }
        assert!(today[RETIRED_ARROW as usize] > 3_000);
    }

    /// Every refusal a text alone can cause is met, and acceptance too.
    #[test]
    fn generated_texts_meet_every_answer() {
        let mut met = [false; 16];
        let mut table = [0; 120];
        for text in texts(5, 6_000) {
            assert!(text.len() <= TEXT_MAX);
            met[tree::read(2, &text, &mut table).number as usize] = true;
        }
        for number in [0, 3, 4, 5, 6, 7, 8, 11, 15] {
            assert!(met[number], "{number}");
        }
    }
}
