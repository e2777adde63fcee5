//! How a text is laid out anew.

use super::random::Random;
use super::space::{blank, filled, space, spoiled};
use crate::layout::Change;
use std::ops::Range;

/// Which stretches of a text are replaced.
#[derive(Clone, Copy, Debug, PartialEq, Eq)]
pub enum Choice {
    Every,
    Some,
    One,
}

/// Other space for these stretches; there is at least one.
pub fn laid(stretches: &[Range<usize>], choice: Choice, random: &mut Random) -> Vec<Change> {
    let one = random.below(stretches.len());
    let mut changes = Vec::new();
    for (index, stretch) in stretches.iter().enumerate() {
        let chosen = match choice {
            Choice::Every => true,
            Choice::Some => random.once_in(2),
            Choice::One => index == one,
        };
        if chosen {
            changes.push((stretch.clone(), space(random)));
        }
    }
    changes
}

/// One blank for each of them, so that no text gets longer.
pub fn laid_short(stretches: &[Range<usize>], random: &mut Random) -> Vec<Change> {
    let blanks = |stretch: &Range<usize>| (stretch.clone(), vec![blank(random)]);
    stretches.iter().map(blanks).collect()
}

/// Other space for all, and in one of them bytes that are not UTF-8.
pub fn spoiled_one(stretches: &[Range<usize>], random: &mut Random) -> Vec<Change> {
    let mut changes = laid(stretches, Choice::Every, random);
    let one = random.below(changes.len());
    changes[one].1 = spoiled(random);
    changes
}

/// One of the stretches as long as it takes to bring a text of `from` bytes to
/// `to`, which are no fewer.
pub fn stretched_to(
    (from, to): (usize, usize),
    stretches: &[Range<usize>],
    random: &mut Random,
) -> Vec<Change> {
    let one = stretches[random.below(stretches.len())].clone();
    let length = to - from + one.len();
    vec![(one, filled(length, random))]
}

#[cfg(test)]
mod tests {
    use super::{laid, laid_short, spoiled_one, stretched_to, Choice, Random};
    use crate::layout::{changed, relaid, stretches};

    #[test]
    fn each_way_lays_a_text_out_anew() {
        let text = b" {1 2, \"a b\" }`c`";
        let stretches = stretches(text);
        let mut random = Random::new(8);
        for _ in 0..100 {
            let random = &mut random;
            let ways = [
                laid(&stretches, Choice::Every, random),
                laid(&stretches, Choice::Some, random),
                laid(&stretches, Choice::One, random),
                laid_short(&stretches, random),
                spoiled_one(&stretches, random),
                stretched_to((text.len(), 999), &stretches, random),
            ];
            let others = ways.each_ref().map(|changes| changed(text, changes));
            assert!(others.iter().all(|other| relaid(text, other)));
            assert_eq!((ways[0].len(), ways[2].len()), (stretches.len(), 1));
            assert!(others[3].len() <= text.len());
            assert_eq!(others[5].len(), 999);
        }
    }
}
