//! The nodes of a document as a tree.

use muon::{Branch, Document, Node, TABLE_MAX};

const TEXTS: [&str; 12] = [
    "x",
    "()",
    "{,,}",
    "(((x)))",
    "::a::b",
    "(x:(y,z))",
    "{{},{{}},{}}",
    "(x : 1, (y, z), ::n : {}, w : (a -> b))",
    "(Array:{a : 20, (b, c), [*] : 3})",
    "(Set:{(a, b), 5 : 0bTRUE})",
    "{[], [5], [{1} <=* ], [ *< (a : b)], [(Bag:{b : 2}) .. {}]}",
    "{a : {b : {c : d}}, e}",
];

/// What is found of a text that is accepted at level 2.
fn with<T>(text: &str, find: impl FnOnce(Document) -> T) -> T {
    let mut table = [0; TABLE_MAX];
    find(Document::read(2, text.as_bytes(), &mut table).expect("a good text"))
}

/// The children by their parents' indices alone.
fn by_parents(nodes: &[Node], index: usize) -> Vec<usize> {
    let below = nodes.iter().enumerate().skip(1);
    below
        .filter(|(_, node)| node.parent as usize == index)
        .map(|(child, _)| child)
        .collect()
}

#[test]
fn children_are_those_that_name_the_parent() {
    for text in TEXTS {
        with(text, |document| {
            let nodes: Vec<Node> = document.nodes().collect();
            assert_eq!(document.root().below() + 1, nodes.len());
            for (index, node) in nodes.iter().enumerate() {
                let branch = document.branch(index).expect("a node");
                assert_eq!((branch.index(), branch.node()), (index, *node));
                let indices: Vec<usize> = branch.children().map(|child| child.index()).collect();
                assert_eq!(indices, by_parents(&nodes, index), "{text}");
                let is_above = |child: Branch| child.parent().map(|above| above.index());
                assert!(branch
                    .children()
                    .all(|child| is_above(child) == Some(index)));
                let below: usize = branch.children().map(|child| 1 + child.below()).sum();
                assert_eq!(branch.below(), below, "{text}");
            }
            assert!(document.branch(nodes.len()).is_none());
            assert!(document.branch(usize::MAX).is_none());
            let all = document.branches().map(|branch| branch.index());
            assert!(all.eq(0..nodes.len()), "{text}");
        });
    }
}

#[test]
fn siblings_are_the_children_in_turn() {
    for text in TEXTS {
        with(text, |document| {
            let root = document.root();
            assert!(root.next_sibling().is_none() && root.parent().is_none());
            let mut open = vec![root];
            while let Some(branch) = open.pop() {
                let mut next = branch.first_child();
                for child in branch.children() {
                    let found = next.expect("a sibling");
                    assert_eq!(found.index(), child.index(), "{text}");
                    next = found.next_sibling();
                    open.push(child);
                }
                assert!(next.is_none(), "{text}");
            }
        });
    }
}

/// Name, if there is one, and value of each attribute, as they stand in the text.
fn attributes(text: &str) -> Vec<(Option<&str>, &str)> {
    with(text, |document| {
        let shown = |branch: Branch| &text[branch.span()];
        document
            .root()
            .attributes()
            .map(|attribute| (attribute.name.map(shown), shown(attribute.value)))
            .collect()
    })
}

#[test]
fn attributes_of_a_tuple() {
    assert_eq!(attributes("()"), []);
    assert_eq!(attributes("(x,)"), [(None, "x")]);
    assert_eq!(attributes("(x : 1,)"), [(Some("x"), "1")]);
    assert_eq!(
        attributes("(x : 1, (y, z), ::n : {x : y}, w : (a : b), v)"),
        [
            (Some("x"), "1"),
            (None, "(y, z)"),
            (Some("::n"), "{x : y}"),
            (Some("w"), "(a : b)"),
            (None, "v"),
        ]
    );
}

#[test]
fn no_attributes_of_another_kind() {
    for text in [
        "x",
        "(x : y)",
        "{x : y, z}",
        "(Array:{a : 2})",
        "(Set:{a})",
        "(Bag:{a})",
        "[1..2]",
        "::a::b",
    ] {
        assert_eq!(attributes(text), [], "{text}");
    }
}
