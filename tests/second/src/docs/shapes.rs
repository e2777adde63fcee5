//! What was read, in words: kinds and roles by their names.

use crate::answer::NODE_WORDS;

const KINDS: [&str; 16] = [
    "unknown",
    "Ignorance",
    "Boolean",
    "Integer",
    "Fraction",
    "Bits",
    "Blob",
    "Text",
    "Nesting",
    "Pair",
    "Tuple",
    "Lot",
    "Array",
    "Set",
    "Bag",
    "Interval",
];
const ROLES: [&str; 10] = [
    "root", "this", "that", "that", "name", "value", "count", "low", "high", "single",
];
/// The last kind that has no children, and so bytes that are a literal.
const NESTING: u32 = 8;

fn kind(node: &[u32]) -> &'static str {
    KINDS.get(node[0] as usize).unwrap_or(&KINDS[0])
}

fn role(node: &[u32]) -> &'static str {
    ROLES.get(node[4] as usize).unwrap_or(&KINDS[0])
}

/// Whether a prose is a shape: whether it begins with a kind.
pub fn is_shape(prose: &str) -> bool {
    let first = prose.split([':', ' ', ',']).next();
    first.is_some_and(|word| KINDS[1..].contains(&word))
}

/// The root's kind, and its children, each with its role and its kind: "Tuple:
/// name Text, value Integer".
pub fn shape(words: &[u32]) -> String {
    let mut nodes = words.chunks_exact(NODE_WORDS);
    let root = nodes.next().map_or("nothing", kind);
    let children = nodes.filter(|node| node[3] == 0);
    let children: Vec<String> = children
        .map(|node| format!("{} {}", role(node), kind(node)))
        .collect();
    match children.len() {
        0 => root.to_string(),
        _ => format!("{root}: {}", children.join(", ")),
    }
}

/// The listing, with a note behind the words of each node: its role, its kind,
/// and its bytes if it is a literal.
pub fn listing(level: u32, text: &[u8], words: &[u32]) -> String {
    let mut lines = format!("ok {level} {}\n", words.len() / NODE_WORDS);
    for node in words.chunks_exact(NODE_WORDS) {
        let numbers: Vec<String> = node.iter().map(u32::to_string).collect();
        let mut note = format!("{} {}", role(node), kind(node));
        if node[0] <= NESTING {
            let piece = &text[node[1] as usize..node[2] as usize];
            note = format!("{note} {}", String::from_utf8_lossy(piece));
        }
        lines.push_str(&annotated(&numbers.join(" "), &note));
    }
    lines
}

/// A line of a listing, with its note.
fn annotated(words: &str, note: &str) -> String {
    format!("{words}  {note}\n")
}

/// A line of a listing as a document has it: two spaces or more before its note.
pub fn line(line: &str) -> String {
    match line.split_once("  ") {
        Some((words, note)) => annotated(words, note.trim()),
        None => format!("{line}\n"),
    }
}

#[cfg(test)]
mod tests {
    use super::*;
    use crate::tree;

    fn read(text: &[u8]) -> Vec<u32> {
        let mut table = vec![0; 70];
        let answer = tree::read(2, text, &mut table);
        table.truncate(answer.count * NODE_WORDS);
        table
    }

    #[test]
    fn shapes_of_texts() {
        assert_eq!(shape(&read(b"true")), "Text");
        assert_eq!(
            shape(&read(b"(x:{1,2},3)")),
            "Tuple: name Text, value Lot, value Integer"
        );
        assert_eq!(shape(&read(b"(5:y,)")), "nothing");
        assert!(is_shape("Tuple: name Text") && is_shape("Text") && !is_shape("6@4"));
    }

    #[test]
    fn notes_in_a_listing() {
        let text = b"(x:{-5},)";
        let lines = [
            "ok 2 4",
            "10 0 9 0 0 0 4    root Tuple",
            "7 1 2 0 4 2 2     name Text x",
            "11 3 7 0 5 0 4    value Lot",
            "3 4 6 2 1 0 4     this Integer -5",
        ];
        let shown: String = lines.map(line).concat();
        assert_eq!(listing(2, text, &read(text)), shown);
    }
}
