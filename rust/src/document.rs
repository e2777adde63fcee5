//! A text that was read, with its nodes.

use crate::{nodes, plain, read, Branch, Error, Nodes, NODE_WORDS};

/// A text and its nodes.  Only a reading that accepts the text makes one, so
/// that every node has its kind, its role and its bytes.
///
/// Text and table are lent to it: it takes no memory, and is copied as two
/// slices are.
///
/// ```
/// use muon::{Document, Kind, TABLE_MAX};
///
/// let text = br#"(name : "north field", engines : 7, limits : {-15, 40})"#;
/// let mut table = [0; TABLE_MAX];
/// let document = Document::read(2, text, &mut table)?;
/// let root = document.root();
/// assert_eq!(root.kind(), Kind::Tuple);
/// assert_eq!(root.get("engines")?.integer()?, 7);
/// let limits: Result<Vec<i64>, _> = root
///     .get("limits")?
///     .children()
///     .map(|limit| limit.integer())
///     .collect();
/// assert_eq!(limits?, [-15, 40]);
/// let mut buffer = [0; 40];
/// assert_eq!(root.get("name")?.text(&mut buffer)?, "north field");
/// # Ok::<(), Box<dyn std::error::Error>>(())
/// ```
#[derive(Clone, Copy, Debug)]
pub struct Document<'a> {
    level: u32,
    text: &'a [u8],
    /// Those of all nodes, and no more.
    words: &'a [u32],
}

impl<'a> Document<'a> {
    /// Reads `text` at a level, 1 or 2, as [`read()`] does, into the lent table.
    /// [`TABLE_MAX`](crate::TABLE_MAX) words are room enough for every text that
    /// a table can hold; what they held does not matter.  Such a table is 28,672
    /// bytes of the caller's memory: on the stack, if it is a local variable, beside
    /// the [`STACK_MAX`](crate::STACK_MAX) of the call.  A shorter one, a static one
    /// or a vector will do, too.
    ///
    /// # Errors
    ///
    /// Those of [`read()`], with line and column.
    ///
    /// ```
    /// use muon::{Document, TABLE_MAX};
    ///
    /// let mut table = [0; TABLE_MAX];
    /// let error = Document::read(1, b"(x:1,\n [1..2])", &mut table).expect_err("level 2");
    /// assert_eq!(error.to_string(), "2:2: refused (7): a newer form than the level has");
    /// assert!(Document::read(2, b"(x:1,\n [1..2])", &mut table).is_ok());
    /// ```
    pub fn read(level: u32, text: &'a [u8], table: &'a mut [u32]) -> Result<Document<'a>, Error> {
        let count = read(level, text, table).accepted_in(text)?;
        Ok(Document {
            level,
            text,
            words: &table[..NODE_WORDS * count],
        })
    }

    /// The level that it was read at.
    #[must_use]
    pub fn level(&self) -> u32 {
        self.level
    }

    /// The text.
    #[must_use]
    pub fn text(&self) -> &'a [u8] {
        self.text
    }

    /// The words that the reading wrote, seven for each node.
    #[must_use]
    pub fn words(&self) -> &'a [u32] {
        self.words
    }

    /// All nodes in their order, as numbers.
    pub fn nodes(&self) -> Nodes<'a> {
        nodes(self.words, self.words.len())
    }

    /// The root, which every text has.
    #[must_use]
    pub fn root(&self) -> Branch<'a> {
        Branch::at(*self, 0).expect("an accepted text has a node")
    }

    /// The node with this index, if there are as many; 0 is the root.
    ///
    /// ```
    /// use muon::{Document, TABLE_MAX};
    ///
    /// let mut table = [0; TABLE_MAX];
    /// let document = Document::read(1, b"{a, 7}", &mut table)?;
    /// assert_eq!(document.branch(2).map(|branch| branch.bytes()), Some(&b"7"[..]));
    /// assert!(document.branch(3).is_none());
    /// # Ok::<(), muon::Error>(())
    /// ```
    #[must_use]
    pub fn branch(&self, index: usize) -> Option<Branch<'a>> {
        Branch::at(*self, index)
    }

    /// All nodes in their order, the root first, each as a branch.
    ///
    /// ```
    /// use muon::{Document, Kind, TABLE_MAX};
    ///
    /// let mut table = [0; TABLE_MAX];
    /// let document = Document::read(1, b"{a, 7, {8}}", &mut table)?;
    /// let kinds: Vec<Kind> = document.branches().map(|branch| branch.kind()).collect();
    /// use Kind::{Integer, Lot, Text};
    /// assert_eq!(kinds, [Lot, Text, Integer, Lot, Integer]);
    /// # Ok::<(), muon::Error>(())
    /// ```
    pub fn branches(&self) -> impl Iterator<Item = Branch<'a>> {
        let document = *self;
        (0..).map_while(move |index| document.branch(index))
    }

    /// The plain form, at the start of a lent buffer; see
    /// [`plain::write`](crate::plain::write()).  [`plain::bytes`] of the text's
    /// length are room enough.
    ///
    /// # Errors
    ///
    /// [`NoRoom`](crate::Refusal::NoRoom) with the bytes needed, and no other.
    ///
    /// ```
    /// use muon::{plain, Document, TABLE_MAX};
    ///
    /// let mut table = [0; TABLE_MAX];
    /// let document = Document::read(2, b"( x : 1_0 , )", &mut table)?;
    /// let mut buffer = [0; plain::bytes(13)];
    /// assert_eq!(document.plain(&mut buffer)?, b"(x:10,)");
    /// # Ok::<(), muon::Error>(())
    /// ```
    pub fn plain<'b>(&self, buffer: &'b mut [u8]) -> Result<&'b [u8], Error> {
        let answer = plain::write(self.level, self.text, self.words, buffer);
        let count = answer.accepted_in(self.text)?;
        Ok(&buffer[..count])
    }
}

#[cfg(test)]
mod tests {
    use super::*;
    use crate::{Kind, Role};

    /// Three nodes with words that no reading has written: every walk still ends,
    /// and is at indices that the table has.
    #[test]
    fn words_of_no_reading() {
        let some = [0, 1, 2, 3, 4, u32::MAX];
        let mut words = [0; 3 * NODE_WORDS];
        for number in 0..some.len().pow(6) {
            for (node, words) in words.chunks_mut(NODE_WORDS).enumerate() {
                let chosen = number / some.len().pow(2 * node as u32);
                let [parent, skip] = [chosen, chosen / some.len()].map(|at| some[at % some.len()]);
                let role = [Role::Name, Role::Value][number % 2].number();
                words.copy_from_slice(&[Kind::Tuple.number(), 0, 0, parent, role, 0, skip]);
            }
            let document = Document {
                level: 2,
                text: b"",
                words: &words,
            };
            stays_inside(document.root());
        }
    }

    fn stays_inside(root: Branch) {
        // a few more than there are, so that one that does not end fails
        assert!(root.children().take(9).count() <= 2);
        assert!(root.attributes().take(9).count() <= 2);
        assert!(root.unknown(&[]).is_none_or(|one| one.index() < 3));
        for branch in root.children().take(9) {
            assert!(branch.index() < 3);
            assert!(branch.parent().is_none_or(|above| above.index() < 3));
            let mut next = Some(branch);
            while let Some(sibling) = next {
                next = sibling.next_sibling();
                assert!(next.is_none_or(|next| next.index() > sibling.index()));
            }
        }
    }
}
