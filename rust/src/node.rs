//! The nodes in a table, as numbers.

use crate::NODE_WORDS;
use core::iter::FusedIterator;
use core::ops::Range;
use core::slice::ChunksExact;

/// The words of a node under their names, for those who have a table.  In a
/// [`Document`](crate::Document) a node is a [`Branch`](crate::Branch), with
/// kind, role and detail by name.
#[derive(Clone, Copy, Debug, PartialEq, Eq, Hash)]
pub struct Node {
    /// What it is: the number of a [`Kind`](crate::Kind).
    pub kind: u32,
    /// The place of its first byte.
    pub first: u32,
    /// The place of the byte after its last.
    pub end: u32,
    /// The index of its parent; 0 for the root.
    pub parent: u32,
    /// What it is to its parent: the number of a [`Role`](crate::Role).
    pub role: u32,
    /// A further detail of its kind: the number of a
    /// [`Detail`](crate::Detail); else 0.
    pub detail: u32,
    /// The index just past its last descendant, or past itself if it has none.
    pub skip: u32,
}

impl Node {
    /// Its bytes in the text.
    #[must_use]
    pub fn span(&self) -> Range<usize> {
        self.first as usize..self.end as usize
    }
}

impl From<[u32; NODE_WORDS]> for Node {
    fn from([kind, first, end, parent, role, detail, skip]: [u32; NODE_WORDS]) -> Node {
        Node {
            kind,
            first,
            end,
            parent,
            role,
            detail,
            skip,
        }
    }
}

/// The first `count` nodes of a table; fewer if it has not as many.
///
/// The nodes stand one behind the other, the root first, a parent before its
/// children, children in the order of the text.
///
/// ```
/// use muon::Kind;
///
/// let text = b"{seven : 7, eight : 8}";
/// let mut table = [0; muon::TABLE_MAX];
/// let answer = muon::read(1, text, &mut table);
/// let integers: Vec<&[u8]> = muon::nodes(&table, answer.count)
///     .filter(|node| node.kind == Kind::Integer.number())
///     .map(|node| &text[node.span()])
///     .collect();
/// assert_eq!(integers, [b"7", b"8"]);
/// ```
pub fn nodes(table: &[u32], count: usize) -> Nodes<'_> {
    let words = count.saturating_mul(NODE_WORDS).min(table.len());
    Nodes {
        words: table[..words].chunks_exact(NODE_WORDS),
    }
}

/// The nodes of a table in their order; see [`nodes`].
#[derive(Clone, Debug)]
#[must_use = "nothing is walked until it is asked for"]
pub struct Nodes<'a> {
    words: ChunksExact<'a, u32>,
}

impl Iterator for Nodes<'_> {
    type Item = Node;

    fn next(&mut self) -> Option<Node> {
        let words: [u32; NODE_WORDS] = self.words.next()?.try_into().ok()?;
        Some(Node::from(words))
    }

    fn size_hint(&self) -> (usize, Option<usize>) {
        self.words.size_hint()
    }
}

impl ExactSizeIterator for Nodes<'_> {}
impl FusedIterator for Nodes<'_> {}
