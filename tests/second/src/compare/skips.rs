//! The seventh words of a reading, held against its parents alone: no other
//! reading is asked.

use super::{Compared, Difference};
use crate::answer::{NODE_WORDS, SKIP};
use std::iter::successors;

/// That the skips of these nodes are those that follow from their parents.
pub fn follow_from_parents(text: &[u8], words: &[u32]) -> Compared {
    let nodes = Nodes { text, words };
    nodes.descendants()?;
    nodes.children()?;
    nodes.walk()
}

struct Nodes<'a> {
    text: &'a [u8],
    words: &'a [u32],
}

impl Nodes<'_> {
    fn count(&self) -> usize {
        self.words.len() / NODE_WORDS
    }

    fn skip(&self, index: usize) -> usize {
        self.words[index * NODE_WORDS + SKIP] as usize
    }

    /// The root has none.
    fn parent(&self, index: usize) -> Option<usize> {
        (index > 0).then(|| self.words[index * NODE_WORDS + 3] as usize)
    }

    fn fails(&self, index: usize, what: &str) -> Compared {
        Err(Difference(format!(
            "nodes of b\"{}\" ({} bytes): {index} with skip {}: {what}",
            self.text.escape_ascii(),
            self.text.len(),
            self.skip(index)
        )))
    }

    /// What has a node above it are exactly the nodes behind it and before its
    /// skip; so the root's is the count.
    fn descendants(&self) -> Compared {
        if self.skip(0) != self.count() {
            return self.fails(0, "not the count");
        }
        let mut above = vec![false; self.count()];
        for node in 0..self.count() {
            let line = || successors(self.parent(node), |above| self.parent(*above));
            line().for_each(|index| above[index] = true);
            for (index, is_above) in above.iter().enumerate() {
                let inside = index < node && node < self.skip(index);
                if inside != *is_above {
                    return self.fails(index, &format!("wrong of {node}"));
                }
            }
            line().for_each(|index| above[index] = false);
        }
        Ok(())
    }

    /// The first child comes right behind its parent, each other one where the
    /// stretch before it ends, and where the last one ends the parent does.
    fn children(&self) -> Compared {
        let mut ends: Vec<usize> = (1..=self.count()).collect();
        for node in 1..self.count() {
            let parent = self.parent(node).filter(|parent| *parent < node);
            let Some(parent) = parent.filter(|parent| ends[*parent] == node) else {
                return self.fails(node, "not behind the child before it");
            };
            ends[parent] = self.skip(node);
        }
        match (0..self.count()).find(|index| ends[*index] != self.skip(*index)) {
            Some(index) => self.fails(index, "not where its last child ends"),
            None => Ok(()),
        }
    }

    /// By the rules of the header.
    fn first_child(&self, index: usize) -> Option<usize> {
        (self.skip(index) > index + 1).then_some(index + 1)
    }

    fn next_sibling(&self, index: usize) -> Option<usize> {
        let next = self.skip(index);
        (next < self.skip(self.parent(index)?)).then_some(next)
    }

    /// A walk by these rules meets every node once, in order, below its parent.
    fn walk(&self) -> Compared {
        let mut met = 0;
        let mut open = vec![0];
        while let Some(index) = open.pop() {
            if index != met {
                return self.fails(index, &format!("met in place of {met}"));
            }
            met += 1;
            let children: Vec<usize> =
                successors(self.first_child(index), |child| self.next_sibling(*child)).collect();
            if children
                .iter()
                .any(|child| self.parent(*child) != Some(index))
            {
                return self.fails(index, "a child of another");
            }
            open.extend(children.iter().rev());
        }
        if met != self.count() {
            return self.fails(0, &format!("only {met} nodes met"));
        }
        Ok(())
    }
}

#[cfg(test)]
mod tests {
    use super::*;
    use crate::answer::NODES_MAX;
    use crate::samples::readings::SKIPS;
    use crate::tree;

    fn words(text: &[u8]) -> Vec<u32> {
        let mut words = vec![0; NODES_MAX * NODE_WORDS];
        let answer = tree::read(2, text, &mut words);
        words.truncate(answer.count * NODE_WORDS);
        words
    }

    #[test]
    fn right_skips() {
        for (text, _) in SKIPS {
            assert!(follow_from_parents(text, &words(text)).is_ok());
        }
    }

    #[test]
    fn every_other_skip_is_found() {
        for (text, skips) in SKIPS {
            let words = words(text);
            for index in 0..skips.len() {
                for other in (0..=skips.len() as u32 + 1).filter(|other| *other != skips[index]) {
                    let mut wrong = words.clone();
                    wrong[index * NODE_WORDS + SKIP] = other;
                    assert!(follow_from_parents(text, &wrong).is_err());
                }
            }
        }
    }
}
