use super::{read_by, Rules};
use crate::answer::{Answer, NODES_MAX, NODE_WORDS, RETIRED_ARROW, SKIP, WRONG_PLACE};
use crate::samples::{self, readings, Want};

const WORDS: usize = NODES_MAX * NODE_WORDS + 8;
/// What the lent table holds before a call.
const UNTOUCHED: u32 = 0xA5A5_5A5A;

/// Reads with a table of this many words and checks all that holds of every
/// answer.
fn checked(rules: Rules, level: u32, text: &[u8], words: usize) -> (Answer, Vec<u32>) {
    let mut table = vec![UNTOUCHED; words];
    let answer = read_by(rules, level, text, &mut table);
    let written = match answer.number {
        0 => answer.count * NODE_WORDS,
        _ => 0,
    };
    assert!(table[written..].iter().all(|&word| word == UNTOUCHED));
    table.truncate(written);
    check_parents(&table);
    check_skips(&table);
    (answer, table)
}

/// Every node but the root has an earlier parent, whose stretch holds it,
/// and siblings stand in source order.
fn check_parents(table: &[u32]) {
    for (index, node) in table.chunks(NODE_WORDS).enumerate() {
        if index == 0 {
            assert_eq!((node[3], node[4]), (0, 0));
            continue;
        }
        assert!((node[3] as usize) < index);
        let parent = &table[node[3] as usize * NODE_WORDS..];
        assert!(parent[1] < node[1] && node[2] < parent[2]);
        assert_ne!(node[4], 0);
        let before = &table[(index - 1) * NODE_WORDS..];
        assert!(before[1] < node[1]);
        // Parent first: whoever ends later than this one begins is above it.
        if before[2] > node[1] {
            assert_eq!(node[3] as usize, index - 1);
        }
    }
}

/// Children lie inside their parent's stretch, the first right behind the
/// parent and each other one where the stretch before it ends; the last one
/// ends it.
fn check_skips(table: &[u32]) {
    let nodes: Vec<&[u32]> = table.chunks(NODE_WORDS).collect();
    if let Some(root) = nodes.first() {
        assert_eq!(root[SKIP] as usize, nodes.len());
    }
    for (index, node) in nodes.iter().enumerate() {
        let children =
            (0..nodes.len()).filter(|child| *child > 0 && nodes[*child][3] == index as u32);
        let mut next = index + 1;
        for child in children {
            assert_eq!(child, next);
            next = nodes[child][SKIP] as usize;
        }
        assert_eq!(node[SKIP] as usize, next);
    }
}

fn meets(level: u32, text: &[u8], words: usize, want: Want) {
    meets_by(Rules::Today, level, text, words, want);
}

fn meets_by(rules: Rules, level: u32, text: &[u8], words: usize, want: Want) {
    let (answer, table) = checked(rules, level, text, words);
    let text_shown = String::from_utf8_lossy(text);
    let shown = format!("{rules:?}, level {level}: {text_shown:?}");
    match want {
        Want::Refused(number, place, count) => {
            let refusal = Answer {
                number,
                place,
                count,
            };
            assert_eq!(answer, refusal, "{shown}");
        }
        Want::Accepted(count, rows) => {
            assert_eq!(answer, Answer::accepted(text.len(), count), "{shown}");
            if rows.is_empty() {
                return;
            }
            let found: Vec<samples::Row> = table
                .chunks(NODE_WORDS)
                .map(|node| [node[0], node[1], node[2], node[4], node[5]])
                .collect();
            assert_eq!(found, rows, "{shown}");
        }
    }
}

fn meets_both(sample: &samples::Sample) {
    meets(1, sample.text, WORDS, sample.one);
    meets(2, sample.text, WORDS, sample.two);
    for (level, want) in [1, 2].into_iter().zip(sample.old) {
        meets_by(Rules::Old, level, sample.text, WORDS, want);
    }
}

#[test]
fn texts_of_the_scope_paper() {
    samples::scope::EXAMPLES.iter().for_each(meets_both);
}

#[test]
fn examples_of_the_source() {
    samples::source::EXAMPLES.iter().for_each(meets_both);
}

#[test]
fn examples_of_the_readings() {
    for (_, samples) in readings::EXAMPLES {
        samples.iter().for_each(meets_both);
    }
}

#[test]
fn escapes_out_of_range() {
    samples::escapes::EXAMPLES.iter().for_each(meets_both);
}

#[test]
fn room() {
    for &(text, words, want) in readings::ROOMS {
        meets(2, text, words, want);
    }
    let most = samples::members(2048);
    meets(1, &most, 100_000, Want::Accepted(1024, &[]));
    let more = samples::members(2050);
    meets(1, &more, 100_000, Want::Refused(8, 2050, 1025));
    let full = samples::members(32_768);
    meets(2, &full, 100_000, Want::Refused(8, 32_768, 16_384));
}

#[test]
fn levels() {
    for &(text, level, want) in readings::LEVELS {
        meets(level, text, WORDS, want);
    }
    meets(u32::MAX, b"x", WORDS, Want::Refused(1, 0, 0));
}

#[test]
fn level_then_length_then_utf8() {
    meets(3, &[0xFF; 32_769], WORDS, Want::Refused(1, 0, 0));
    meets(1, &[0xFF; 32_769], WORDS, Want::Refused(2, 0, 0));
    meets(1, &[0xFF; 32_768], WORDS, Want::Refused(3, 0, 0));
}

/// The parents, which the papers' short notation leaves out.
#[test]
fn parents() {
    let (_, table) = checked(Rules::Today, 2, b"{(x:y),[a..(Bag:{b:2})]}", WORDS);
    let parents: Vec<u32> = table.chunks(NODE_WORDS).map(|node| node[3]).collect();
    assert_eq!(parents, [0, 0, 1, 1, 0, 4, 4, 6, 6]);
}

fn skips(rules: Rules, text: &[u8]) -> Vec<u32> {
    let (_, table) = checked(rules, 2, text, WORDS);
    table.chunks(NODE_WORDS).map(|node| node[SKIP]).collect()
}

#[test]
fn the_seventh_word() {
    for (text, want) in readings::SKIPS {
        assert_eq!(skips(Rules::Today, text), *want, "{}", text.escape_ascii());
    }
    // as it stands, and as it follows the indices where the arrow is turned
    assert_eq!(skips(Rules::Old, b"({c,d}<-b)"), [5, 4, 3, 4, 5]);
    assert_eq!(skips(Rules::Old, b"(b:{c,d})"), [5, 2, 5, 4, 5]);
    let mut flat: Vec<u32> = (1..=NODES_MAX as u32).collect();
    flat[0] = NODES_MAX as u32;
    let text = samples::members(2 * NODES_MAX);
    assert_eq!(skips(Rules::Today, &text), flat);
    let deep = ["{".repeat(32), "}".repeat(32)].concat();
    assert_eq!(skips(Rules::Today, deep.as_bytes()), [32; 32]);
}

/// The third demand, by both rules: unless level 1 says "newer form", the
/// levels agree; if it does, level 2 accepts or refuses there or later.
#[test]
fn levels_end_alike_or_level_1_says_newer_form() {
    let generated = crate::generate::texts(7, 3_000);
    let texts = samples::all().into_iter().map(|s| s.text.to_vec());
    for text in texts.chain(generated) {
        for (rules, words) in [
            (Rules::Today, WORDS),
            (Rules::Today, 17),
            (Rules::Old, WORDS),
            (Rules::Old, 17),
        ] {
            let one = checked(rules, 1, &text, words);
            let two = checked(rules, 2, &text, words);
            if one.0.number == 7 {
                assert!(two.0.place >= one.0.place);
            } else {
                assert_eq!(one, two);
            }
        }
    }
}

/// The two rules differ in an arrow `<-` that the old ones allow, and only
/// there: what stands behind it is not looked at.
#[test]
fn the_rules_differ_at_the_first_arrow() {
    let (mut refused, mut alike) = (0, 0);
    let arrows = crate::generate::arrow_texts(3, 3_000);
    for text in arrows.into_iter().chain(crate::generate::arrow_rows()) {
        for level in [1, 2] {
            let today = checked(Rules::Today, level, &text, WORDS);
            let old = checked(Rules::Old, level, &text, WORDS);
            if today.0.number != RETIRED_ARROW {
                assert_eq!(today, old, "{}", text.escape_ascii());
                assert!(today.1.chunks(NODE_WORDS).all(|node| node[4] != 3));
                alike += 1;
                continue;
            }
            refused += 1;
            let place = today.0.place;
            assert!(text[place..].starts_with(b"<-"));
            assert!(old.0.number == 0 || old.0.place >= place + 2);
            // the arrow itself is sound by the old rules, whatever is behind it
            let front = checked(Rules::Old, level, &text[..place + 2], WORDS).0;
            assert_eq!(front, Answer::refused(WRONG_PLACE, place + 2));
            let today = checked(Rules::Today, level, &text[..place + 2], WORDS).0;
            assert_eq!(today, Answer::refused(RETIRED_ARROW, place));
        }
    }
    assert!(refused > 3_000 && alike > 3_000, "{refused}, {alike}");
}

/// Deep groups and long look ahead cost no more than their length.
#[test]
fn long_texts_are_answered_quickly() {
    let mut texts = crate::generate::long_texts();
    texts.push(b"(Array".repeat(5_000));
    texts.push(b"(a:".repeat(10_000));
    texts.push([b"{".to_vec(), b"(a:b),".repeat(5_000), b"}".to_vec()].concat());
    for text in texts {
        let start = std::time::Instant::now();
        checked(Rules::Today, 1, &text, WORDS);
        checked(Rules::Today, 2, &text, WORDS);
        assert!(start.elapsed() < std::time::Duration::from_secs(4));
    }
}
